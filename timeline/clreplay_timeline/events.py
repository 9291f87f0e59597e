"""Which lines of a trace belong to one event, and which earlier line each line comes of."""

# Each of these begins an event wherever it stands
FIRST_WORDS = {
    "up", "ticked", "delivered", "lost", "repeated", "asked", "clock", "armed", "queued", "skipped", "rounds", "probe",
    "refused", "too-large"}
FIRST_SHAPES = {"down N crash", "dropped P down"}
# What a trace without ticks can have only where they were left out
BRIEF_WORDS = {"attempt", "start", "member", "ack", "call", "rounds"}
WITHOUT_DEVICE = ("not-member", "no-path", "not-held")


def is_whole(lines):
    """Whether the trace has its ticks and packets; a brief one, without them, does not show where events begin."""
    words = {line.form.shape.split(" ")[0] for line in lines}
    return "ticked" in words or not words & BRIEF_WORDS


def saves_for_command(line, following):
    """Seizing a device without votes saves the record before its first command."""
    if line.form.shape != "saved N" or following is None:
        return False
    word = following.form.shape.split(" ")[0]
    return word == "device" and following.fields["N"] == line.fields["N"] and "ignore" in following.text


def begins(line, before, following):
    """Whether the line begins an event, by the lines before and behind it."""
    shape = line.form.shape
    word, word_before = shape.split(" ")[0], before.form.shape.split(" ")[0] if before else ""
    if word in FIRST_WORDS or shape in FIRST_SHAPES or saves_for_command(line, following):
        return True
    if word == "device":
        return word_before != "server" and not (before and saves_for_command(before, line))
    if word == "server":
        return word_before != "server"
    if word == "served":
        return word_before != "forgot"
    return word == "forgot" or (word == "write" and line.fields.get("CAUSE") in WITHOUT_DEVICE)


def first_lines(lines):
    """For each line the number of the line that begins its event; 0 throughout in a brief trace."""
    if not is_whole(lines):
        return [0] * len(lines)
    found, first = [], 1
    for i, line in enumerate(lines):
        following = lines[i + 1] if i + 1 < len(lines) else None
        if begins(line, lines[i - 1] if i else None, following):
            first = line.number
        found.append(first)
    return found


class Origins:
    """For each line the earlier line that it answers or ends, where there is one."""

    def __init__(self, packets):
        self.packets, self.latest = packets, {}

    def told(self, *key):
        return self.latest.get(key, 0)

    def take(self, line):
        """The number of that line, or 0."""
        fields, word = line.fields, line.form.shape.split(" ")[0]
        if word in ("delivered", "lost", "dropped", "repeated"):
            packet = self.packets.by_number.get(fields["P"])
            return packet.line if packet else 0
        origin = self.down_origin(line) if word == "down" else self.origin(line, word, fields)
        self.keep(line, word, fields)
        return origin

    def down_origin(self, line):
        """A panic comes of the refused write, the failed method, or the start that left the node out."""
        fields, shape = line.fields, line.form.shape
        if shape == "down N panic fenced D":
            return self.told("write", fields["N"])
        if shape == "down N panic stop R":
            return self.told("done", fields["N"], fields["R"])
        return self.told("start", fields["E"]) if shape == "down N panic excluded E" else 0

    def origin(self, line, word, fields):
        if word in ("ended", "start"):
            return self.told("attempt", fields["E"])
        if word in ("member", "base", "adopt"):
            return self.told("start", fields["E"])
        if word == "installed":
            return self.told("attempt", fields["E"])
        if word == "ack":
            return self.told("propose", fields["E"], fields["V"])
        if word == "answer":
            return self.told("asked", fields["N"], fields["Q"])
        if word in ("rg", "why", "rs", "quorum", "table"):
            return self.told("question")
        if word == "done":
            return self.told("call", fields["N"], fields["R"])
        if word == "write":
            command = self.told("device", fields["N"], fields["D"])
            return command if command == line.number - 1 else 0
        return 0

    def keep(self, line, word, fields):
        keys = {
            "attempt": ("E",), "start": ("E",), "propose": ("E", "V"), "asked": ("N", "Q"), "call": ("N", "R"),
            "done": ("N", "R"), "device": ("N", "D"), "write": ("N",)}
        if word in keys:
            self.latest[(word, *(fields[name] for name in keys[word]))] = line.number
        if word == "asked":
            self.latest[("question",)] = line.number
