"""What each node is at each line: down, forming, attempting or a member."""
from .trace import list_of


class Bands:
    """Stretches of lines, each with a state. A band is [first line, line behind it, state, epoch, text]."""

    def __init__(self):
        self.bands = []

    def change(self, line, state, epoch=0, text=""):
        """From this line on the state is another; a band that would have no line is left out."""
        if self.bands:
            last = self.bands[-1]
            if last[2:] == [state, epoch, text]:
                return
            last[1] = line
            if last[0] >= line:
                self.bands.pop()
        self.bands.append([line, 0, state, epoch, text])

    def finish(self, line):
        if self.bands:
            self.bands[-1][1] = line
        return self.bands


class Nodes:
    """The bands of all nodes."""

    def __init__(self, count):
        self.bands = {}
        for node in range(1, count + 1):
            self.at(node)

    def at(self, node):
        if node not in self.bands:
            self.bands[node] = Bands()
            self.bands[node].change(1, "down")
        return self.bands[node]

    def state(self, node):
        return self.at(node).bands[-1][2:4]

    def forming(self, node, line, text):
        self.at(node).change(line, "forming", 0, text)

    def promised(self, line, epoch):
        """A node that sends a Promise of another epoch has left its membership."""
        node = int(line.fields["A"])
        if self.state(node) not in (["down", 0], ["member", epoch]):
            self.forming(node, line.number, f"promised {epoch}")

    def started(self, line):
        """Whoever is a member of a new membership has left the one before; a brief trace shows no Promise."""
        epoch = int(line.fields["E"])
        for node in list_of(line.fields["LIST"]):
            state = self.state(node)
            if state[0] == "member" and state[1] != epoch:
                self.forming(node, line.number, f"promised {epoch}")

    def take(self, line):
        """Follows one line."""
        word, fields = line.form.shape.split(" ")[0], line.fields
        if word == "up":
            self.forming(int(fields["N"]), line.number, "forming")
        elif word == "down":
            self.at(int(fields["N"])).change(line.number, "down", 0, line.text.split(" ", 2)[2])
        elif word == "attempt":
            epoch = int(fields["E"])
            self.at(epoch % 64).change(line.number, "attempting", epoch, f"attempting {epoch}")
        elif word == "ended":
            self.attempt_ended(line)
        elif word == "member":
            epoch = int(fields["E"])
            self.at(int(fields["N"])).change(line.number, "member", epoch, f"member of {epoch}")
        elif word == "start":
            self.started(line)
        elif word == "installed" and self.state(int(fields["N"]))[0] == "forming":
            self.forming(int(fields["N"]), line.number, f"installed {fields['E']}")

    def attempt_ended(self, line):
        epoch = int(line.fields["E"])
        if self.state(epoch % 64) == ["attempting", epoch]:
            self.forming(epoch % 64, line.number, f"ended {epoch}")

    def finish(self, line):
        return {node: bands.finish(line) for node, bands in sorted(self.bands.items())}
