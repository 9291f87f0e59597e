"""Reads the trace of a cluster schedule, line by line.

A form is spelled as in docs/TRACE.md: words in capitals stand for what varies, all others for themselves."""
import re
from collections import namedtuple

Form = namedtuple("Form", "shape kind pattern")
# `number` counts from 1; `fields` has what stands in place of the words in capitals, a second LIST as LIST2
Line = namedtuple("Line", "number text form fields")

KINDS = {
    "nodes": "boots and ends of nodes",
    "memberships": "attempts and memberships",
    "writes": "writes to devices",
    "updates": "commands and updates",
    "methods": "methods and probes",
    "answers": "answers to questions",
    "devices": "device commands",
    "messages": "messages",
    "heartbeats": "heartbeats",
    "ticks": "ticks and saves",
    "schedule": "lines no node answers",
}
SHAPES = {
    "nodes": (
        "up N", "down N crash", "down N stopped", "down N panic fenced D", "down N panic excluded E",
        "down N panic disk", "down N panic stop R"),
    "ticks": ("ticked N", "saved N"),
    "messages": (
        "sent P A B KIND BYTES", "delivered P A B", "lost P", "repeated P Q",
        "dropped P link", "dropped P pool", "dropped P down"),
    "devices": (
        "device N D COMMAND = ANSWER", "device N D COMMAND = failed",
        "server D N done", "server D N again", "server D stopped old", "server D stopped new"),
    "writes": ("write E N D V accepted", "write N D V refused CAUSE"),
    "memberships": (
        "attempt E LIST", "ended E votes HAVE NEED D:RESULT ..", "ended E superseded Q", "ended E silent N",
        "ended E excluded N", "ended E foreign N", "start E LIST held LIST base K", "base E V WORDS",
        "adopt E N R FLAGS", "installed N E", "member N E"),
    "updates": (
        "asked N Q", "propose E V WORDS", "ack E V WORDS",
        "answer N Q ok", "answer N Q unknown", "answer N Q refused CAUSE"),
    "methods": (
        "call E N METHOD R", "done E N METHOD R OUTCOME", "probe N R RESULT",
        "served A CLIENT PORT N", "served A CLIENT PORT none", "forgot A CLIENT PORT"),
    "answers": (
        "rg G N STATE", "why G N REASON", "rs R N STATE", "quorum votes TOTAL need NEED",
        "quorum node N VOTE member", "quorum node N VOTE absent",
        "quorum device D VOTES held", "quorum device D VOTES lost", "quorum device D VOTES off",
        "table ccr_gennum N", "table ccr_checksum X", "table KEY VALUE"),
    "schedule": (
        "clock S", "queued", "armed", "rounds done", "skipped up", "skipped down", "skipped no-packet",
        "skipped no-work", "skipped no-monitor", "skipped no-president", "skipped no-address",
        "skipped no-server", "skipped server", "refused K KIND", "too-large K"),
}

NUMBER = r"(?:0|[1-9][0-9]{0,19})"
COUNT = r"[1-9][0-9]{0,19}"
NODE = r"(?:3[0-2]|[12][0-9]|[1-9])"
DEVICE = r"(?:1[0-6]|[1-9])"
NAME = r"[a-z][a-z0-9_-]{0,31}"
KEY = r"(?:0|[1-9a-f][0-9a-f]{0,15})"
TYPE = "[1356]"
METHODS = (
    "PRENET_START", "START", "MONITOR_START", "MONITOR_CHECK", "MONITOR_STOP", "STOP", "POSTNET_STOP", "VALIDATE",
    "INIT", "FINI", "BOOT", "UPDATE")
MESSAGES = (
    "Heartbeat|Collect|Promise|Nack|Install|Ready|Start|Excluded"
    f"|(?:SeizeQuorum|SeizeData|Seized) {DEVICE}"
    f"|(?:Prepared?|Commit|Order|Done|Request|Answer) {COUNT}")
COMMANDS = "|".join((
    f"register {KEY} {KEY}", f"ignore {KEY}", f"reserve {TYPE} {KEY}", f"release {TYPE} {KEY}", f"clear {KEY}",
    f"preempt {TYPE} {KEY} {KEY}", "keys", "holder", "read", f"write {NUMBER}", "word", f"swap {NUMBER} {NUMBER}"))
DEVICE_ANSWERS = "|".join((
    "good", "conflict", "invalid-release", "no-path", "keys none", f"keys(?: {KEY})+", "reservation none",
    f"reservation {KEY} {TYPE}", f"data {NUMBER}", f"word {NUMBER}", f"miscompare {NUMBER}"))
RESULT = f"{DEVICE}:(?:no-path|not-registered|greater-{NUMBER}|expelled|contended-{KEY}|fault)"
REFUSALS = "|".join((
    "unknown-command", "missing-operand", "bad-value", "not-member", f"ask {NODE}", "queue-full", "unknown [^ ]+",
    "exists", "in-use [^ ]+", "managed", "unmanaged", "same-value", f"not-listed {NODE}", "too-many", "bad-property",
    "bad-setting", "still-up", rf"cycle {NAME}(?:,{NAME})*", "single", "no-mark", "node-is-member", "device-not-held",
    f"lose-quorum {NUMBER} {NUMBER}", f"record-full {NUMBER}", "node-has-vote"))
REASONS = "|".join((
    "unmanaged", "offline", "suspended", "empty", "not-member", "stop-failed", "evacuated", "start-failed", "moved",
    "leaving", f"affinity {NAME}", f"dependency {NAME}", f"faulted {NAME}", f"blocked {NAME}", f"load {NAME}"))
GROUP_STATES = (
    "UNMANAGED|ERROR_STOP_FAILED|ONLINE|ONLINE_FAULTED|PENDING_ONLINE|PENDING_ONLINE_BLOCKED|PENDING_OFFLINE|OFFLINE")

PATTERNS = {
    "N": NODE, "A": NODE, "B": NODE, "M": NODE, "D": DEVICE, "E": NUMBER, "P": COUNT, "Q": COUNT, "V": NUMBER,
    "K": NUMBER, "S": NUMBER, "HAVE": NUMBER, "NEED": NUMBER, "TOTAL": NUMBER, "VOTE": "[01]", "VOTES": NUMBER,
    "R": NAME, "G": NAME, "LIST": "none|[0-9]+(?:,[0-9]+)*", "WORDS": "[^ ]+(?: [^ ]+)*", "KIND": MESSAGES,
    "BYTES": "(?:[0-9a-f]{2})+", "COMMAND": COMMANDS, "ANSWER": DEVICE_ANSWERS, "FLAGS": "(?=.)p?r?m?f?s?",
    "METHOD": "|".join(METHODS), "OUTCOME": "success|failure|timeout", "REASON": REASONS, "X": "[0-9a-f]{64}",
    "CLIENT": NUMBER, "PORT": NUMBER,
}
# where a word in capitals means something else than in the other forms
OWN_PATTERNS = {
    "write N D V refused CAUSE": {"CAUSE": "not-member|no-path|not-held|fenced|fault"},
    "answer N Q refused CAUSE": {"CAUSE": REFUSALS},
    "probe N R RESULT": {"RESULT": "ok|restart|move|logged"},
    "rg G N STATE": {"STATE": GROUP_STATES},
    "rs R N STATE": {"STATE": "STOP_FAILED|START_FAILED|ONLINE|STARTING|OFFLINE"},
    "table ccr_gennum N": {"N": NUMBER},
    "served A CLIENT PORT N": {"A": NAME},
    "served A CLIENT PORT none": {"A": NAME},
    "forgot A CLIENT PORT": {"A": NAME},
    "refused K KIND": {"K": COUNT, "KIND": "header|line|number|unknown|not-built"},
    "too-large K": {"K": COUNT},
}
WHOLE_PATTERNS = {
    "ended E votes HAVE NEED D:RESULT ..":
        f"ended (?P<E>{NUMBER}) votes (?P<HAVE>{NUMBER}) (?P<NEED>{NUMBER}) (?P<RESULTS>none|{RESULT}(?: {RESULT})*)",
    "table KEY VALUE": "table (?P<KEY>[^\t]{1,80})\t(?P<VALUE>[^\t]*)",
}
CLOSING = ("refused", "too-large")
LARGEST = 2**64


class NotATrace(Exception):
    """A line that no cluster's trace has."""

    def __init__(self, number, text):
        shown = text if len(text) <= 60 else text[:57] + "..."
        super().__init__(f"line {number} is no line of a cluster's trace: {shown}")
        self.number = number


def pattern_of(shape):
    """The regular expression of a form."""
    if shape in WHOLE_PATTERNS:
        return re.compile(WHOLE_PATTERNS[shape])
    own = OWN_PATTERNS.get(shape, {})
    words, seen = [], set()
    for word in shape.split(" "):
        pattern = own.get(word) or PATTERNS.get(word)
        if pattern is None:
            words.append(re.escape(word))
            continue
        name = word + "2" if word in seen else word
        seen.add(word)
        words.append(f"(?P<{name}>{pattern})")
    return re.compile(" ".join(words))


FORMS = tuple(Form(shape, kind, pattern_of(shape)) for kind, shapes in SHAPES.items() for shape in shapes)
BY_FIRST_WORD = {}
for _form in FORMS:
    BY_FIRST_WORD.setdefault(_form.shape.split(" ")[0], []).append(_form)


def list_of(text):
    """The numbers of a LIST."""
    return [] if text == "none" else [int(word) for word in text.split(",")]


def in_range(fields):
    """Whether lists ascend, epochs are those of a node, and no number is too large."""
    for name, value in fields.items():
        if name == "E" and not 1 <= int(value) % 64 <= 32:
            return False
        if name.startswith("LIST"):
            numbers = list_of(value)
            if numbers and (sorted(set(numbers)) != numbers or numbers[0] < 1 or numbers[-1] > 32):
                return False
        elif len(value) == 20 and value.isdigit() and int(value) >= LARGEST:
            return False
    return True


def read_line(number, text):
    """The line, or NotATrace."""
    for form in BY_FIRST_WORD.get(text.split(" ", 1)[0], ()):
        match = form.pattern.fullmatch(text)
        if match and in_range(match.groupdict()):
            return Line(number, text, form, match.groupdict())
    raise NotATrace(number, text)


def read_trace(data, progress=None):
    """The lines of a trace, given as bytes. `progress` is told the number of lines read, now and then."""
    texts = data.decode("utf-8", "backslashreplace").split("\n")
    if texts[-1] == "":
        texts.pop()
    lines = []
    for number, text in enumerate(texts, 1):
        if lines and lines[-1].form.shape.split(" ")[0] in CLOSING:
            raise NotATrace(number, text)
        lines.append(read_line(number, text))
        if progress and number % 5000 == 0:
            progress(number, len(texts))
    return lines
