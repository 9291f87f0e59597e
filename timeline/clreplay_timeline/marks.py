"""The marks that lines set in the lanes.

A mark is [line, lane, row, glyph, labels]; the page shows the first label for which there is room. A lane is named by
its kind and what it is of: `node 1`, `device 2`, `resource db`, `schedule`. In a node's lane row 0 is above the band,
row 1 below it and row 2 at the bottom; in the lane of a group or resource the row is the node's number."""

from .resources import CLEARS

# Glyphs of the lines of a node that have no more to tell than their words; (row, glyph)
NODE_MARKS = {
    "up N": (0, "boot"), "down N crash": (0, "crash"), "down N stopped": (0, "crash"),
    "member N E": (0, "member"), "installed N E": (0, "installed"),
    "ticked N": (2, "tick"), "saved N": (2, "save"),
    "asked N Q": (1, "asked"), "answer N Q ok": (1, "ok"), "answer N Q unknown": (1, "unknown"),
}
PRESIDENT_MARKS = {
    "attempt E LIST": (0, "attempt"), "propose E V WORDS": (1, "propose"), "ack E V WORDS": (1, "ack"),
}
SCHEDULE_MARKS = {"clock": "clock", "rounds": "rounds"}
ANSWERS = {"good": "did", "failed": "failed", "conflict": "refusal", "no-path": "refusal", "miscompare": "refusal"}


def ended_labels(fields, text):
    """The cause of an attempt's end, at length and short."""
    words = text.split(" ")[2:]
    if words[0] != "votes":
        return ["ended: " + " ".join(words), " ".join(words), words[0]]
    lacks = "" if words[3:] == ["none"] else ", " + " ".join(words[3:])
    count = f"{fields['HAVE']} of {fields['NEED']} votes"
    return [f"ended: {count}{lacks}", f"ended: {count}", count, "votes"]


def node_marks(line):
    """Marks in the lanes of nodes."""
    shape, fields, number = line.form.shape, line.fields, line.number
    if shape in NODE_MARKS:
        row, glyph = NODE_MARKS[shape]
        yield [number, f"node {fields['N']}", row, glyph, []]
    elif shape in PRESIDENT_MARKS:
        row, glyph = PRESIDENT_MARKS[shape]
        yield [number, f"node {int(fields['E']) % 64}", row, glyph, []]
    elif shape.startswith("start "):
        yield [number, f"node {int(fields['E']) % 64}", 0, "start", [f"start {fields['E']}", fields["E"]]]
    elif shape.startswith("ended "):
        yield [number, f"node {int(fields['E']) % 64}", 0, "ended", ended_labels(fields, line.text)]
    elif shape.startswith("down N panic"):
        cause = line.text.split(" ", 3)[3]
        yield [number, f"node {fields['N']}", 0, "panic", ["panic: " + cause, cause, cause.split(" ")[0]]]
    elif shape.startswith("answer N Q refused"):
        yield [number, f"node {fields['N']}", 1, "refused-command", [fields["CAUSE"]]]


def device_marks(line):
    """Marks in the lanes of devices, and those of the nodes that use them."""
    word, fields, number = line.form.shape.split(" ")[0], line.fields, line.number
    if word == "device":
        glyph = ANSWERS.get(fields.get("ANSWER", "failed").split(" ")[0], "did")
        yield [number, f"device {fields['D']}", 0, glyph, []]
        yield [number, f"node {fields['N']}", 2, glyph, []]
    elif word == "server":
        yield [number, f"device {fields['D']}", 0, "server", []]
    elif word == "write":
        cause = fields.get("CAUSE", "")
        glyph = "refused-write" if cause else "accepted"
        yield [number, f"node {fields['N']}", 0, glyph, [f"write refused: {cause}", cause] if cause else []]
        yield [number, f"device {fields['D']}", 0, glyph, []]


def method_marks(line):
    """Marks of calls, at the node and in the row of the resource; of answers, in the rows of what they tell."""
    word, fields, number = line.form.shape.split(" ")[0], line.fields, line.number
    if word in ("call", "done", "probe"):
        glyph = {"call": "call", "probe": "probe"}.get(word) or fields["OUTCOME"]
        if fields.get("METHOD") in CLEARS and glyph in ("call", "success"):
            glyph += "-stop"
        failed = [f"{fields['METHOD']} {fields['R']}: {glyph}", glyph] if glyph in ("failure", "timeout") else []
        yield [number, f"node {fields['N']}", 1, glyph, failed]
        yield [number, f"resource {fields['R']}", int(fields["N"]), glyph, []]
    elif word in ("rg", "why"):
        yield [number, f"group {fields['G']}", int(fields["N"]), "told", [fields.get("STATE") or fields["REASON"]]]
    elif word == "rs":
        yield [number, f"resource {fields['R']}", int(fields["N"]), "told", [fields["STATE"]]]
    elif word == "served" and "M" in fields:
        yield [number, f"node {fields['M']}", 1, "served", []]


def schedule_marks(line):
    """Marks in the lane of the schedule."""
    word, number = line.form.shape.split(" ")[0], line.number
    if line.form.kind == "schedule" or line.form.shape in ("served A CLIENT PORT none", "forgot A CLIENT PORT"):
        label = [line.text] if word in ("clock", "refused", "too-large") else []
        yield [number, "schedule", 0, SCHEDULE_MARKS.get(word, "other"), label]


def marks_of(line):
    """All marks of a line."""
    for part in (node_marks, device_marks, method_marks, schedule_marks):
        yield from part(line)
