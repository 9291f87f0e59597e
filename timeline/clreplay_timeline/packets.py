"""What a packet's bytes tell, and where each packet of a trace begins and ends."""
from .trace import METHODS

NAMES = (
    "Heartbeat", "Collect", "Promise", "Nack", "SeizeQuorum", "SeizeData", "Seized", "Install", "Ready", "Start",
    "Prepare", "Prepared", "Commit", "Order", "Done", "Request", "Answer", "Excluded")
RESULTS = ("held", "not registered", "greater", "expelled", "contended", "fault")
OUTCOMES = ("success", "failure", "timeout")


class Bytes:
    """Reads the fields of a message from the front; a message that is too short raises IndexError."""

    def __init__(self, text):
        self.rest = bytes.fromhex(text)

    def number(self, size):
        if len(self.rest) < size:
            raise IndexError("the message is too short")
        value, self.rest = int.from_bytes(self.rest[:size], "big"), self.rest[size:]
        return value

    def members(self):
        """A set, as the numbers by commas."""
        bits = self.number(4)
        return ",".join(str(n) for n in range(1, 33) if bits >> (n - 1) & 1) or "none"

    def text(self):
        size = self.number(4)
        if len(self.rest) < size:
            raise IndexError("the message is too short")
        value, self.rest = self.rest[:size], self.rest[size:]
        return value.decode("utf-8", "backslashreplace")

    def texts(self):
        return [self.text() for _ in range(self.number(2))]


def heartbeat(reader):
    promised, session = reader.number(8), reader.number(8)
    return promised, f"promised {promised}, session {session}, {'a member' if reader.number(1) else 'no member'}"


def collect(reader):
    return reader.number(8), f"members {reader.members()}"


def promise(reader):
    epoch, installed, members, valid = reader.number(8), reader.number(8), reader.members(), reader.members()
    flags, committed, pending = reader.number(1), reader.texts(), reader.texts()
    state = "has resources up" if flags else "has no resource up"
    return epoch, (
        f"installed {installed} of {members}, valid devices {valid}, {state}, "
        f"updates {len(committed)}, pending {len(pending)}")


def nack(reader):
    return reader.number(8), f"promised {reader.number(8)}"


def seize(reader):
    return reader.number(8), f"members {reader.members()}, device {reader.number(1)}"


def seized(reader):
    epoch, device, result, number = reader.number(8), reader.number(1), reader.number(1), reader.number(8)
    shown = f" {number}" if result == 2 else f" {number:x}" if result == 4 else ""
    return epoch, f"device {device}: {RESULTS[result]}{shown}"


def install(reader):
    epoch, members, committed, pending = reader.number(8), reader.members(), reader.texts(), reader.texts()
    held = []
    for _ in range(reader.number(2)):
        held.append(f"{reader.number(1)} by node {reader.number(1)}")
        reader.rest = reader.rest[8 * reader.number(2):]
    return epoch, (
        f"members {members}, updates {len(committed)}, pending {len(pending)}, held devices: {', '.join(held) or 'none'}")


def ready(reader):
    return reader.number(8), f"joined devices {reader.members()}"


def start(reader):
    return reader.number(8), ""


def prepare(reader):
    return reader.number(8), f"place {reader.number(8)}: {reader.text()}"


def place(reader):
    return reader.number(8), f"place {reader.number(8)}"


def order(reader):
    epoch, number, method, resource = reader.number(8), reader.number(8), reader.number(1), reader.text()
    return epoch, f"order {number}: {METHODS[method - 1] if method else 'clear'} {resource}"


def done(reader):
    return reader.number(8), f"order {reader.number(8)}: {OUTCOMES[reader.number(1)]}"


def request(reader):
    return reader.number(8), f"request {reader.number(8)}: {reader.text()}"


def excluded(reader):
    return reader.number(8), f"newest {reader.number(8)}"


READERS = (
    heartbeat, collect, promise, nack, seize, seize, seized, install, ready, start, prepare, place, place, order, done,
    request, request, excluded)


def read_message(text):
    """The name, the epoch and what else a message tells; None where the bytes are no message."""
    try:
        reader = Bytes(text)
        kind, _sender = reader.number(1), reader.number(1)
        epoch, told = READERS[kind - 1](reader)
        return NAMES[kind - 1], epoch, told
    except IndexError:
        return None


class Packet:
    """A packet: where it was sent, where it ended (0 while it is under way), how, and what it says."""

    def __init__(self, number, line, sender, receiver, kind):
        self.number, self.line, self.sender, self.receiver, self.kind = number, line, sender, receiver, kind
        self.end, self.fate, self.epoch, self.told = 0, "under way", 0, ""


class Packets:
    """The packets of a trace, in the order of their numbers."""

    def __init__(self):
        self.by_number = {}

    def sent(self, line):
        fields = line.fields
        packet = Packet(fields["P"], line.number, int(fields["A"]), int(fields["B"]), fields["KIND"])
        message = read_message(fields["BYTES"])
        if message and message[0] == packet.kind.split(" ")[0]:
            _, packet.epoch, packet.told = message
        self.by_number[packet.number] = packet

    def ended(self, line, fate):
        """The packet that this line ends, if it was seen; one that is dropped by its link had been under way."""
        packet = self.by_number.get(line.fields["P"])
        if packet and not packet.end:
            packet.end, packet.fate = line.number, fate
        return packet

    def repeated(self, line):
        first = self.by_number.get(line.fields["P"])
        if first:
            copy = Packet(line.fields["Q"], line.number, first.sender, first.receiver, first.kind)
            copy.epoch, copy.told = first.epoch, first.told
            self.by_number[copy.number] = copy

    def take(self, line):
        """Follows one line."""
        word = line.form.shape.split(" ")[0]
        if word == "sent":
            self.sent(line)
        elif word == "repeated":
            self.repeated(line)
        elif word == "delivered":
            self.ended(line, "delivered")
        elif word == "lost":
            self.ended(line, "lost")
        elif word == "dropped":
            self.ended(line, "dropped: " + line.form.shape.split(" ")[2])
