"""What led to a line, besides the line that it answers: messages, commands and starts before it."""
from .trace import list_of

ASKING = ("SeizeQuorum", "SeizeData")


class Causes:
    """Follows the lines; `packets` is ahead of it by the same line."""

    def __init__(self, packets):
        self.packets = packets
        self.asked = {}      # for a node, and for a node and a device: the line that gave it commands to send
        self.prepared = {}   # for an epoch and a place: the lines that sent what was delivered of the update
        self.starts = []

    def take(self, line):
        """The numbers of the lines."""
        word, fields = line.form.shape.split(" ")[0], line.fields
        if word == "delivered" and fields["P"] in self.packets.by_number:
            self.delivered(line, self.packets.by_number[fields["P"]])
        elif word == "attempt":
            self.asked[int(fields["E"]) % 64] = line.number
        elif word == "start":
            self.starts.append((line.number, list_of(fields["LIST"]), list_of(fields["LIST2"])))
        elif word == "device":
            node, device = int(fields["N"]), fields["D"]
            last = max(self.asked.get(node, 0), self.asked.get((node, device), 0))
            return [last] if last else []
        elif word == "ack":
            return list(self.prepared.get((fields["E"], fields["V"]), ()))
        elif fields.get("CAUSE") == "fenced":
            return self.left_out(int(fields["N"]), int(fields["D"]))
        return []

    def delivered(self, line, packet):
        kind, _, number = packet.kind.partition(" ")
        if kind in ASKING:
            self.asked[(packet.receiver, number)] = line.number
        elif kind == "Install":
            self.asked[packet.receiver] = line.number
        elif kind in ("Prepare", "Prepared"):
            self.prepared.setdefault((str(packet.epoch), number), []).append(packet.line)

    def left_out(self, node, device):
        """The latest start that holds the device without the node: it fenced it."""
        found = [number for number, members, held in self.starts if device in held and node not in members]
        return found[-1:]
