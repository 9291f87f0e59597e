"""Reads the schedule of a cluster, and finds for its lines the lines of the trace that they led to."""
import re
from collections import namedtuple

from .trace import CLOSING

Step = namedtuple("Step", "number text words")
PACKET_WORDS = {
    "deliver": ("delivered", "dropped"), "next": ("delivered", "dropped"), "lose": ("lost",), "drop": ("lost",),
    "repeat": ("repeated",), "again": ("repeated",)}
# Lines that a brief trace shows always; the others are to be seen there only where they are skipped
SURE_WORDS = {
    "boot", "crash", "crashat", "fault", "write", "cmd", "outcome", "probe", "clock", "server", "serverstop", "client"}
ARMING = {"crashat", "fault", "server", "serverstop"}


class NotASchedule(Exception):
    """The text is no schedule of a cluster."""

    def __init__(self, number, wanted):
        super().__init__(f"line {number} of the schedule: {wanted} is wanted there")


class Schedule:
    """The header of a schedule and its steps."""

    def __init__(self, cluster, nodes, configured, devices, steps):
        self.cluster, self.nodes, self.configured, self.devices, self.steps = cluster, nodes, configured, devices, steps

    def first_keys(self, device):
        """The keys that the device has at first: a quorum device those of its configured nodes."""
        kind, attached = self.devices.get(device, ("data", []))
        if kind == "data":
            return []
        return [(node, f"{self.cluster << 32 | node:x}") for node in attached if node in self.configured]


def numbers(words):
    return [int(word) for word in words]


def read_schedule(data):
    """The schedule, given as bytes, or NotASchedule."""
    steps = []
    for number, text in enumerate(data.decode("utf-8", "backslashreplace").split("\n"), 1):
        if text == "end":
            break
        if text and not text.startswith("#"):
            steps.append(Step(number, text, text.split(" ")))
    wanted = [r"schedule cluster [12]", r"cluster [0-9a-f]{1,8}", r"nodes [1-9][0-9]?"]
    if steps and steps[0].text == "schedule cluster 2":
        wanted.append(r"configured [0-9 ]+")
    for i, pattern in enumerate(wanted):
        if i >= len(steps) or not re.fullmatch(pattern, steps[i].text):
            raise NotASchedule(steps[i].number if i < len(steps) else len(steps) + 1, pattern.split(" ")[0])
    count = int(steps[2].words[1])
    configured = numbers(steps[3].words[1:]) if len(wanted) == 4 else list(range(1, count + 1))
    rest, devices = steps[len(wanted):], {}
    while rest and re.fullmatch(r"device [0-9]+ (quorum|data|server)( [0-9]+)+", rest[0].text):
        devices[int(rest[0].words[1])] = (rest[0].words[2], numbers(rest[0].words[3:]))
        rest = rest[1:]
    return Schedule(int(steps[1].words[1], 16), count, configured, devices, rest)


def fits(step, line):
    """Whether the line of the trace can be the first that the step leads to."""
    word, text, shape = step.words[0], line.text, line.form.shape
    first = shape.split(" ")[0]
    if first in CLOSING:
        return True
    if first == "skipped":
        return word not in ("clock", "outcome", "rounds", "crashat")
    if word in PACKET_WORDS:
        return first in PACKET_WORDS[word]
    if word in ARMING or word == "outcome":
        return text == ("queued" if word == "outcome" else "armed")
    if word == "client":
        return first in ("served", "forgot")
    if word == "crash":
        return text == f"down {step.words[1]} crash"
    own = {
        "boot": ("up",), "tick": ("ticked",), "disk": ("device", "saved", "server"), "cmd": ("asked",),
        "write": ("device", "write"), "probe": ("probe",), "clock": ("clock",)}.get(word, ())
    if first not in own:
        return False
    return first == "server" or first == "write" or line.text.split(" ")[1] == step.words[1]


class Alignment:
    """Walks through the steps and the lines together. `spans` has [first line, line behind it, step] in order;
    `stopped` is the step that found no line, or None."""

    def __init__(self, steps, lines, firsts):
        self.lines, self.firsts, self.position = lines, firsts, 0
        self.whole = bool(firsts) and firsts[0] > 0
        self.up, self.spans, self.stopped = set(), [], None
        for step in steps:
            if self.position >= len(lines):
                break
            if not self.place(step):
                self.stopped = step
                break

    def place(self, step):
        begin = self.position
        if step.words[0] == "rounds":
            end = self.behind_rounds()
        elif self.whole:
            end = self.behind_event() if fits(step, self.lines[begin]) else 0
        else:
            return self.place_briefly(step)
        if end:
            self.take(step, begin, end)
        return bool(end)

    def behind_rounds(self):
        end = self.position
        while end < len(self.lines) and self.lines[end].text != "rounds done":
            end += 1
        return min(end + 1, len(self.lines))

    def behind_event(self):
        end = self.position + 1
        while end < len(self.lines) and self.firsts[end] == self.firsts[self.position]:
            end += 1
        return end

    def place_briefly(self, step):
        """In a brief trace lines before the wanted one come of steps whose own line is left out."""
        begin = self.position
        if step.words[0] not in SURE_WORDS:
            if self.is_skip_of(step, self.lines[begin]):
                self.take(step, begin, begin + 1)
            return True
        while begin < len(self.lines) and not fits(step, self.lines[begin]):
            if self.lines[begin].text == "rounds done":
                return False
            begin += 1
        if begin >= len(self.lines):
            self.position = begin
            return True
        self.take(step, begin, begin + 1)
        return True

    def is_skip_of(self, step, line):
        if line.form.shape.split(" ")[0] != "skipped":
            return False
        if step.words[0] in PACKET_WORDS:
            return line.text == "skipped no-packet"
        node_is_up = step.words[1] in self.up
        return line.text == "skipped no-work" and step.words[0] == "disk" if node_is_up else line.text == "skipped down"

    def take(self, step, begin, end):
        for line in self.lines[self.position:end]:
            if line.form.shape == "up N":
                self.up.add(line.fields["N"])
            elif line.form.shape.startswith("down N"):
                self.up.discard(line.fields["N"])
        self.spans.append([begin + 1, end + 1, step])
        self.position = end
