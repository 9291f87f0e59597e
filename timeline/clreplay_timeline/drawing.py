"""Makes of the lines of a trace what the page draws: lanes with bands, marks, packets, and what led to each line."""
from .causes import Causes
from .devices import Devices
from .events import Origins, first_lines, is_whole
from .marks import marks_of
from .nodes import Nodes
from .packets import Packets
from .resources import Resources
from .schedule import Alignment
from .sentences import causes, sentences
from .trace import FORMS, KINDS, list_of


class Words:
    """Each text once; the page gets their numbers."""

    def __init__(self):
        self.numbers = {}

    def number(self, text):
        return self.numbers.setdefault(text, len(self.numbers))


class Memberships:
    """The attempts of a trace, in order: [epoch, line of the attempt, line of its end or start, whether it started,
    its members]."""

    def __init__(self):
        self.by_epoch = {}

    def take(self, line):
        word, epoch = line.form.shape.split(" ")[0], int(line.fields.get("E", 0))
        if word == "attempt":
            self.by_epoch[epoch] = [epoch, line.number, 0, False, list_of(line.fields["LIST"])]
        elif word in ("ended", "start", "member"):
            members = list_of(line.fields.get("LIST", "none"))
            found = self.by_epoch.setdefault(epoch, [epoch, 0, 0, False, members])
            found[2] = found[2] or line.number
            found[3] = found[3] or word != "ended"


def nodes_of(line, packets):
    """The numbers of the nodes that a line names, or that its packet goes between."""
    fields, named = line.fields, []
    if line.form.kind == "messages":
        packet = packets.by_number.get(fields["P"])
        return [packet.sender, packet.receiver] if packet else numbers_in(fields, ("A", "B"))
    if line.form.shape.startswith(("attempt", "start")):
        named = list_of(fields["LIST"])
    named = named + numbers_in(fields, ("N", "M"))
    if "E" in fields and not named:
        named.append(int(fields["E"]) % 64)
    return [] if line.form.shape.startswith("table") else named


def numbers_in(fields, names):
    return [int(fields[name]) for name in names if name in fields and fields[name].isdigit()]


class Drawing:
    """Follows the lines once and keeps what the page needs."""

    def __init__(self, lines, schedule, progress):
        self.lines, self.schedule = lines, schedule
        self.packets, self.memberships, self.resources = Packets(), Memberships(), Resources()
        self.nodes = Nodes(schedule.nodes if schedule else 0)
        self.devices = Devices(schedule, any(line.form.kind == "devices" for line in lines) or is_whole(lines))
        self.origins, self.because, self.marks = [], {}, []
        self.followed, self.causes = Origins(self.packets), Causes(self.packets)
        for line in lines:
            self.take(line)
            if line.number % 5000 == 0:
                progress(line.number, len(lines))
        self.make_lanes_of_all_nodes()
        self.end = len(lines) + 1

    def take(self, line):
        """Follows one line."""
        for part in (self.packets, self.memberships, self.nodes, self.resources):
            part.take(line)
        if line.fields.get("KIND") == "Promise":
            self.nodes.promised(line, self.packets.by_number[line.fields["P"]].epoch)
        if line.form.shape == "delivered P A B" and line.fields["P"] in self.packets.by_number:
            packet = self.packets.by_number[line.fields["P"]]
            self.resources.cleared(packet.told, packet.receiver, line.number)
        removal, causes = self.devices.take(line), self.causes.take(line)
        if removal or causes:
            self.because[line.number] = causes + ([removal] if removal else [])
        self.origins.append(self.followed.take(line))
        self.marks.extend(marks_of(line))

    def make_lanes_of_all_nodes(self):
        """Also of nodes that are only sent to, or named by a list."""
        for line in self.lines:
            for node in nodes_of(line, self.packets):
                self.nodes.at(node)

    def group_names(self):
        names = list(self.resources.nodelists)
        return names + [group for group in dict.fromkeys(self.resources.group_of.values()) if group and group not in names]

    def group_of(self, line):
        """The group that a line is about, or none."""
        fields = line.fields
        if "G" in fields:
            return fields["G"]
        if "R" in fields:
            return self.resources.group_of.get(fields["R"], "")
        words = fields.get("WORDS", "").split(" ")
        if len(words) > 2 and words[0] == "clrg":
            return words[2]
        return self.resources.group_of.get(words[2], "") if len(words) > 2 and words[0] == "clrs" else ""

    def lanes(self):
        lanes = [{"id": "schedule", "kind": "schedule", "title": "schedule"}]
        for node, bands in self.nodes.finish(self.end).items():
            lanes.append({"id": f"node {node}", "kind": "node", "title": f"node {node}", "node": node, "bands": bands})
        for device, tracks in self.devices.finish(self.end).items():
            lanes.append({
                "id": f"device {device}", "kind": "device", "title": f"device {device}", "tracks": tracks,
                "note": self.device_note(device)})
        return lanes + self.group_lanes()

    def device_note(self, device):
        return self.schedule.devices.get(device, ("",))[0] if self.schedule else ""

    def group_lanes(self):
        bands, lanes = self.resources.finish(self.end), []
        for group in self.group_names() + [""]:
            resources = [name for name, of in self.resources.group_of.items() if of == group]
            named = [("group", group)] if group else []
            for row, name in named + [("resource", resource) for resource in resources]:
                lanes.append(self.row_lane(row, name, group, bands))
        return lanes

    def row_lane(self, row, name, group, bands):
        """The lane of a group or resource: a stripe for each node that may have it or had it."""
        used = {key[2] for key in bands if key[:2] == (row, name)}
        marked = {mark[2] for mark in self.marks if mark[1] == f"{row} {name}"}
        nodes = sorted(used | marked | set(self.resources.nodelists.get(group, ())))
        stripes = [[node, bands.get((row, name, node), [])] for node in nodes]
        return {"id": f"{row} {name}", "kind": row, "title": name, "group": group, "stripes": stripes}

    def packet_rows(self, words):
        return [
            [int(p.number), p.line, p.end, p.sender, p.receiver, words.number(p.kind), words.number(p.fate), p.epoch,
             words.number(p.told)]
            for p in self.packets.by_number.values()]

    def columns(self, groups):
        """What the page needs of each line, one list each."""
        shapes = {form.shape: i for i, form in enumerate(FORMS)}
        kinds = list(KINDS)
        heartbeats = {
            number for packet in self.packets.by_number.values() if packet.kind == "Heartbeat"
            for number in (packet.line, packet.end)}
        places = {group: i for i, group in enumerate(groups)}
        masks = [sum(1 << (node - 1) for node in set(nodes_of(line, self.packets))) for line in self.lines]
        kind_of = ["heartbeats" if line.number in heartbeats else line.form.kind for line in self.lines]
        return {
            "texts": [line.text for line in self.lines],
            "forms": [shapes[line.form.shape] for line in self.lines],
            "kinds": [kinds.index(kind) for kind in kind_of],
            "nodes": masks,
            "epochs": [int(line.fields.get("E", 0)) for line in self.lines],
            "groups": [places.get(self.group_of(line), -1) for line in self.lines],
            "firsts": first_lines(self.lines),
            "origins": self.origins,
        }

    def data(self, title):
        """All that the page draws."""
        words, groups, found = Words(), self.group_names(), sentences()
        packets, columns = self.packet_rows(words), self.columns(groups)
        steps = Alignment(self.schedule.steps, self.lines, columns["firsts"]) if self.schedule else None
        return {
            "title": title, "whole": is_whole(self.lines), "kinds": list(KINDS.items()), "groups": groups,
            "forms": [[form.shape, found[form.shape]] for form in FORMS],
            "causes": causes(),
            "lines": columns, "lanes": self.lanes(), "marks": self.marks, "packets": packets,
            "words": list(words.numbers), "memberships": list(self.memberships.by_epoch.values()),
            "because": self.because,
            "steps": [[a, b, step.number, step.text] for a, b, step in steps.spans] if steps else [],
            "stopped": [steps.stopped.number, steps.stopped.text] if steps and steps.stopped else None,
        }
