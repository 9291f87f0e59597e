"""What each resource and each group is at each node, line by line.

A resource has flags at a node: p its network part is up, r it is up, m it is monitored, f it is faulted, s it could
not be stopped. They follow from the calls and from the `adopt` lines of a start."""
from .nodes import Bands
from .trace import list_of

SETS = {"PRENET_START": "p", "START": "r", "MONITOR_START": "m"}
CLEARS = {"POSTNET_STOP": "p", "STOP": "r", "MONITOR_STOP": "m"}


class Configuration:
    """Groups and resources by the acknowledged updates."""

    def __init__(self):
        self.methods, self.groups, self.resources = {}, {}, {}

    def take(self, words):
        """Follows one update."""
        name = " ".join(words[:2])
        if name == "clrt register" and len(words) > 4:
            self.methods[words[2]] = words[4].split(",")
        elif name == "clrg create":
            self.groups[words[2]] = list_of(words[3])
        elif name == "clrs create":
            self.resources[words[2]] = {"group": words[3], "type": words[4], "enabled": True, "mode": "NONE"}
        elif name == "clrg set" and words[3] == "Nodelist":
            self.groups[words[2]] = [int(node) for node in words[4].split(",")]
        elif name == "clrg delete":
            self.groups.pop(words[2], None)
        elif words[0] == "clrs" and words[2] in self.resources:
            self.change(words)

    def change(self, words):
        resource = self.resources[words[2]]
        if words[1] == "delete":
            del self.resources[words[2]]
        elif words[1] in ("enable", "disable"):
            resource["enabled"] = words[1] == "enable"
        elif words[1] == "set" and words[3] == "Failover_mode":
            resource["mode"] = words[4]

    def has_method(self, resource, method):
        kind = self.resources.get(resource, {}).get("type")
        return method in self.methods.get(kind, ())

    def members_of(self, group):
        return [name for name, resource in self.resources.items() if resource["group"] == group]


class Resources:
    """The bands of all groups and resources, by node."""

    def __init__(self):
        self.configuration = Configuration()
        self.flags, self.bands = {}, {}
        self.nodelists, self.group_of = {}, {}
        self.unadopted = set()

    def see(self, resource):
        """Keeps the row of a resource, and of its group, also where it is deleted later."""
        group = self.configuration.resources.get(resource, {}).get("group")
        if group or resource not in self.group_of:
            self.group_of[resource] = group or ""

    def set_flags(self, resource, node, flags, line):
        self.see(resource)
        self.flags[(resource, node)] = flags
        self.show("resource", resource, node, line, state_of(flags), flags)
        group = self.group_of[resource]
        if group:
            self.show("group", group, node, line, self.group_state(group, node))

    def show(self, row, name, node, line, state, text=""):
        bands = self.bands.setdefault((row, name, node), Bands())
        if state != "off" or bands.bands:
            bands.change(line, state, 0, text or state)

    def group_state(self, group, node):
        """What the resources of the group make of it at the node."""
        names = self.configuration.members_of(group) or [r for r, g in self.group_of.items() if g == group]
        flags = [self.flags.get((name, node), "") for name in names]
        enabled = [
            self.flags.get((name, node), "") for name in names
            if self.configuration.resources.get(name, {}).get("enabled", True)]
        if any("s" in some for some in flags):
            return "stop-failed"
        if any("f" in some for some in flags):
            return "faulted"
        if enabled and all("r" in some for some in enabled):
            return "online"
        return "partly" if any(flags) else "off"

    def take(self, line):
        """Follows one line."""
        word = line.form.shape.split(" ")[0]
        if self.unadopted and word not in ("base", "adopt"):
            self.drop_unadopted(line.number)
        handler = getattr(self, "on_" + word, None)
        if handler:
            handler(line)

    def on_up(self, line):
        self.drop_node(int(line.fields["N"]), line.number)

    def on_down(self, line):
        self.drop_node(int(line.fields["N"]), line.number)

    def drop_node(self, node, line):
        for resource, at in list(self.flags):
            if at == node and self.flags[(resource, at)]:
                self.set_flags(resource, node, "", line)

    def on_start(self, line):
        """The members' resources are as the `adopt` lines tell; those that no line names have nothing there."""
        self.configuration = Configuration()
        members = list_of(line.fields["LIST"])
        self.unadopted = {key for key, flags in self.flags.items() if flags and key[1] in members}

    def drop_unadopted(self, line):
        for resource, node in sorted(self.unadopted):
            self.set_flags(resource, node, "", line)
        self.unadopted = set()

    def on_adopt(self, line):
        key = (line.fields["R"], int(line.fields["N"]))
        self.unadopted.discard(key)
        self.set_flags(*key, line.fields["FLAGS"], line.number)

    def on_base(self, line):
        self.update(line)

    def on_ack(self, line):
        self.update(line)

    def update(self, line):
        words = line.fields["WORDS"].split(" ")
        if len(words) < 3:
            return
        self.configuration.take(words)
        if words[0] == "clrg" and words[2] in self.configuration.groups:
            self.nodelists[words[2]] = self.configuration.groups[words[2]]
        if words[0] == "clrs":
            self.see(words[2])
        if words[:2] == ["clrs", "disable"]:
            self.clear_mark(words[2], "f", line.number)

    def clear_mark(self, resource, mark, line):
        for name, node in list(self.flags):
            if name == resource and mark in self.flags[(name, node)]:
                self.set_flags(name, node, self.flags[(name, node)].replace(mark, ""), line)

    def cleared(self, order, node, line):
        """An Order to clear a mark has arrived; `order` is what its bytes say."""
        number, _, words = order.partition(": clear ")
        flags = self.flags.get((words, node), "")
        if number.startswith("order ") and "s" in flags:
            self.set_flags(words, node, flags.replace("s", ""), line)

    def on_done(self, line):
        fields = line.fields
        resource, node, method = fields["R"], int(fields["N"]), fields["METHOD"]
        flags = set(self.flags.get((resource, node), ""))
        if fields["OUTCOME"] == "success":
            flags |= set(SETS.get(method, ""))
            flags -= set(CLEARS.get(method, ""))
            if method == "STOP" and not self.configuration.has_method(resource, "POSTNET_STOP"):
                flags.discard("p")
            if method == "START":
                flags.discard("f")
        else:
            flags |= self.failure(resource, method)
        self.set_flags(resource, node, "".join(flag for flag in "prmfs" if flag in flags), line.number)

    def failure(self, resource, method):
        """The mark that a failed method leaves; under SOFT and HARD a failed start counts against the node."""
        mode = self.configuration.resources.get(resource, {}).get("mode", "NONE")
        if method in ("PRENET_START", "START"):
            return set() if mode in ("SOFT", "HARD") else {"f"}
        return {"s"} if method in CLEARS else set()

    def on_rs(self, line):
        """An answer corrects what the calls told: a cleared mark shows in no other line."""
        key = (line.fields["R"], int(line.fields["N"]))
        flags, state = self.flags.get(key, ""), line.fields["STATE"]
        if "s" in flags and state != "STOP_FAILED" or "f" in flags and state not in ("STOP_FAILED", "START_FAILED"):
            self.set_flags(*key, flags.replace("s", "").replace("f", ""), line.number)
        else:
            self.see(line.fields["R"])

    def finish(self, line):
        return {key: bands.finish(line) for key, bands in self.bands.items()}


def state_of(flags):
    """The first that fits."""
    for flag, state in (("s", "stop-failed"), ("f", "faulted"), ("m", "monitored"), ("r", "up"), ("p", "starting")):
        if flag in flags:
            return state
    return "off"
