"""The sentences that docs/TRACE.md has for the lines of a trace."""
import pathlib
import re

TRACE_PAGE = pathlib.Path(__file__).resolve().parents[2] / "docs" / "TRACE.md"
# Lines of schedules that the page does not describe yet
LATER = {
    "ended E foreign N": "this member is not configured",
    "server D N done": "the quorum server executed a command and saved",
    "server D N again": "the quorum server answered a repeated ask with the answer it kept",
    "server D stopped old": "the quorum server stopped in a save, and was mounted again as before it",
    "server D stopped new": "the quorum server stopped in a save, and was mounted again as behind it",
    "served A CLIENT PORT N": "the client's request for the shared address goes to this node",
    "served A CLIENT PORT none": "no node serves the shared address",
    "forgot A CLIENT PORT": "the address keeps no node for this client any more",
    "skipped no-president": "the node is not the president of a membership of which it is a member",
    "skipped no-address": "there is no such shared address",
    "skipped no-server": "the device is no server, or the node is not attached to it",
    "skipped server": "the device is a server",
    "refused K KIND": "line K of the schedule was refused, and the run ended",
    "too-large K": "line K of the schedule was too long or one too many, and the run ended",
}


def page_text():
    return TRACE_PAGE.read_text(encoding="utf-8")


def rows_of(text, heading):
    """The cells of each row of the tables of clusters whose first column has this heading."""
    cluster = text.split("\n## Cluster schedules\n", 1)[1].split("\n## Closing lines\n", 1)[0]
    inside = False
    for line in cluster.splitlines():
        cells = [cell.strip() for cell in line.strip("|").split(" | ")]
        if line.startswith("| `") and cells[0] != heading:
            if inside:
                yield cells
        elif not line.startswith("| ---"):
            inside = cells[0] == heading


def shapes_of(cell):
    """The forms that a first cell spells; `.. off` stands for the form before it with another last word."""
    shapes = []
    for shape in re.findall(r"`([^`]+)`", cell):
        if shape.startswith(".. "):
            shape = shapes[-1].rsplit(" ", 1)[0] + shape[2:]
        shapes.append(shape)
    return shapes


def sentences():
    """The sentence of each form, by its spelling."""
    of_page = {shape: cells[1] for cells in rows_of(page_text(), "line") for shape in shapes_of(cells[0])}
    return {**LATER, **of_page}


def causes():
    """The sentence of each cause of a refused answer, by its first word."""
    return {shape.split(" ")[0]: cells[1] for cells in rows_of(page_text(), "`CAUSE`") for shape in shapes_of(cells[0])}


def examples():
    """For each example of a line that the page gives, the forms of its row."""
    return [
        (shapes_of(cells[0]), re.search(r"`([^`]+)`", cells[2]).group(1))
        for cells in rows_of(page_text(), "line") if len(cells) > 2 and "`" in cells[2]]
