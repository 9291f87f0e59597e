"""What each shared device has at each line: its keys, its reservation and its word.

A trace shows commands and answers. What they leave open, as after a failed command, is shown as not known."""
from .nodes import Bands
from .trace import list_of

UNKNOWN = "?"


def node_of(key):
    """The node whose key this is: its last 32 bits."""
    return int(key, 16) & 0xFFFFFFFF


class Device:
    """One device. `keys` is a list of (node, key) in order of registration, or None where it is not known."""

    def __init__(self, keys):
        self.keys, self.holder, self.word = keys, None, "0"
        self.server_did = False
        self.removed = {}
        self.tracks = {"keys": Bands(), "reservation": Bands(), "word": Bands()}
        self.show(1)

    def show(self, line):
        """The three tracks as they stand from this line on."""
        keys = UNKNOWN if self.keys is None else ",".join(str(node_of(key)) for _, key in self.keys) or "none"
        word = -1 if self.word == UNKNOWN else int(self.word)
        self.tracks["keys"].change(line, "keys", 0, keys)
        self.tracks["reservation"].change(line, "reservation" if self.holder else "none", 0, self.holder or "none")
        self.tracks["word"].change(line, "word", max(word, 0), self.word)

    def took(self, node, words):
        """A command that was answered `good`."""
        name = words[0]
        if name in ("register", "ignore"):
            self.set_key(node, words[-1])
        elif name == "reserve":
            self.holder = f"node {node}, type {words[1]}"
        elif name == "release":
            self.holder = None if self.holder and self.holder.startswith(f"node {node},") else self.holder
        elif name == "clear":
            self.keys, self.holder = [], None
        elif name == "preempt":
            self.preempt(node, words)
        elif name == "swap":
            self.word = words[2]

    def set_key(self, node, key):
        if self.keys is None:
            return
        registered = [pair for pair in self.keys if pair[0] == node]
        if key == "0":
            self.keys = [pair for pair in self.keys if pair[0] != node]
            self.holder = None if self.holder and self.holder.startswith(f"node {node},") else self.holder
        elif registered:
            self.keys = [(node, key) if pair[0] == node else pair for pair in self.keys]
        else:
            self.keys = self.keys + [(node, key)]

    def preempt(self, node, words):
        victim = words[3]
        if self.holder and self.holder.startswith(f"node {node_of(victim)},"):
            self.holder = f"node {node}, type {words[1]}"
        if self.keys is not None:
            self.keys = [pair for pair in self.keys if pair[1] != victim]

    def answered(self, words, answer):
        """An answer that shows a part of the device."""
        if answer[0] == "keys":
            shown = [] if answer[1:] == ["none"] else answer[1:]
            self.keys = [(node_of(key), key) for key in shown]
        elif answer[0] == "reservation":
            self.holder = None if answer[1] == "none" else f"node {node_of(answer[1])}, type {answer[2]}"
        elif answer[0] in ("word", "miscompare"):
            self.word = answer[1]

    def failed(self, node, words):
        """What a failed command may have changed is not known, but where a quorum server tells that it was done."""
        if self.server_did:
            self.took(node, words)
        elif words[0] in ("register", "ignore", "clear", "preempt"):
            self.keys = None
        elif words[0] == "swap":
            self.word = UNKNOWN
        if not self.server_did and words[0] in ("reserve", "release", "clear", "preempt"):
            self.holder = UNKNOWN


class Devices:
    """All devices. `header` has those that the schedule names, if it is given; `shown` says whether the trace has the
    commands. Where it has not, only the words that the starts tell are known behind the first attempt."""

    def __init__(self, header, shown=True):
        self.devices, self.header, self.shown = {}, header, shown
        for device in header.devices if header else ():
            self.at(device)

    def at(self, device):
        if device not in self.devices:
            self.devices[device] = Device(self.header.first_keys(device) if self.header else None)
        return self.devices[device]

    def take(self, line):
        """Follows one line. Answers the line that had removed the sender's key, where the device refused a command."""
        word, fields = line.form.shape.split(" ")[0], line.fields
        if word == "server":
            self.at(int(fields["D"])).server_did |= line.form.shape in ("server D N done", "server D stopped new")
        elif word == "device":
            return self.command(line)
        elif not self.shown and word == "attempt":
            self.forget(line.number)
        elif not self.shown and word == "start":
            self.tell_words(line)
        return 0

    def forget(self, line):
        for device in self.devices.values():
            device.keys, device.holder, device.word = None, UNKNOWN, UNKNOWN
            device.show(line)

    def tell_words(self, line):
        """The word of each device that a membership holds is its epoch."""
        for number in list_of(line.fields["LIST2"]):
            device = self.at(number)
            device.keys, device.holder, device.word = None, UNKNOWN, line.fields["E"]
            device.show(line.number)

    def command(self, line):
        node, device = int(line.fields["N"]), self.at(int(line.fields["D"]))
        words, answer = line.fields["COMMAND"].split(" "), line.fields.get("ANSWER", "failed").split(" ")
        cause = 0
        if answer[0] == "good":
            device.took(node, words)
        elif answer[0] == "failed":
            device.failed(node, words)
        elif answer[0] == "conflict":
            cause = device.removed.get(node, 0)
        else:
            device.answered(words, answer)
        if words[0] == "preempt" and answer[0] in ("good", "failed"):
            device.removed[node_of(words[3])] = line.number
        device.server_did = False
        device.show(line.number)
        return cause

    def finish(self, line):
        return {
            number: {name: bands.finish(line) for name, bands in device.tracks.items()}
            for number, device in sorted(self.devices.items())}
