"""The pages of three cases in a real browser: what they show is compared with the trace."""
import os
import pathlib
import re
import tempfile
import unittest

import browser
import long_trace
import test_program
from clreplay_timeline.sentences import sentences

FOLDER = pathlib.Path(__file__).resolve().parent
LACKS = test_program.lacks() + browser.lacks()
SECONDS_TO_OPEN = 20        # of 100,000 lines; a few on a machine that does nothing else
# where the mark of a line is drawn: its middle, or null
PLACE = """
  const at = picture.hits.find(hit => hit.line === arguments[0] && !hit.band && !hit.arrow);
  return at && [at.x + at.width / 2, at.y + at.height / 2 + AXIS - scroller.scrollTop];"""
# the colour of the drawing in the middle of a node's band, between two lines
COLOUR = """
  const y = nodeMiddle(arguments[0]) + AXIS - scroller.scrollTop, x = scale(arguments[1]), ratio = window.devicePixelRatio;
  return Array.from(context.getImageData(Math.round(x * ratio), Math.round((y + 7) * ratio), 1, 1).data).slice(0, 3);"""
SKY_BLUE, DARK, WHITE = [86, 180, 233], [91, 99, 109], [255, 255, 255]


def epoch_of(text):
    """The epoch in the bytes of a `sent` line."""
    return int(text.split(" ")[-1][4:20], 16)


@unittest.skipIf(LACKS, "Debian packages are missing: " + " ".join(LACKS))
class Pages(unittest.TestCase):
    @classmethod
    def setUpClass(cls):
        cls.browser = browser.Browser()

    @classmethod
    def tearDownClass(cls):
        cls.browser.close()

    def open(self, name):
        self.lines = (FOLDER / f"{name}.trace").read_text().splitlines()
        self.browser.open(FOLDER / f"{name}.trace", FOLDER / f"{name}.schedule")

    def tearDown(self):
        self.assertEqual(self.browser.errors(), [])

    def number(self, pattern, place=0):
        """The number of a line that fits, the first or another."""
        return [i for i, text in enumerate(self.lines, 1) if re.search(pattern, text)][place]

    def click_line(self, number):
        place = self.browser.run(PLACE, number)
        self.assertIsNotNone(place, self.lines[number - 1])
        self.browser.click_drawing(*place)

    def assert_picked(self, number, shape):
        """The panel shows the line, without the bytes of a packet, and the page's sentence for its form."""
        self.assertEqual(self.browser.run("return pick.line;"), number)
        self.assertEqual(self.browser.text("#picked-line"), re.sub("^(sent .*) [0-9a-f]+$", r"\1", self.lines[number - 1]))
        self.assertEqual(self.browser.text("#picked-sentence"), sentences()[shape].replace("`", ""))

    def shown(self):
        """How many lines the list has."""
        text = self.browser.text("#list-name")
        return int(re.search("([0-9,]+) of", text).group(1).replace(",", ""))

    def counted(self, pattern):
        return sum(bool(re.search(pattern, text)) for text in self.lines)

    def causes(self):
        return self.browser.run("return [...document.querySelectorAll('#detail .go')].map(b => Number(b.dataset.line));")

    def lanes(self):
        return self.browser.run("return laneList.map(lane => lane.id);")

    def assert_as_the_trace(self):
        """The page has the lines of the trace, fetches nothing, and fits the whole trace into view."""
        self.assertEqual(self.browser.run("return data.lines.texts;"), self.lines)
        self.assertEqual(self.browser.run("return performance.getEntriesByType('resource').length;"), 0)
        self.assertEqual(self.browser.run("return [viewFrom() < 1, viewTo() > lineCount];"), [True, True])
        self.assertEqual(self.shown(), len(self.lines))

    def test_split(self):
        self.open("split")
        self.assert_as_the_trace()
        self.assertEqual(self.lanes(), ["schedule", "node 1", "node 2", "device 1"])
        for node, line, colour in ((1, 7.5, SKY_BLUE), (2, 12.7, SKY_BLUE), (2, 13.9, DARK), (2, 17.5, WHITE)):
            self.assertEqual(self.browser.run(COLOUR, node, line), colour, (node, line))
        panic = self.number("^down 2 panic")
        self.click_line(panic)
        self.assert_picked(panic, "down N panic fenced D")
        fencing = [self.number("^attempt 129"), self.number("^start 129")]
        self.assertEqual(self.causes(), [panic - 1] + fencing)
        self.browser.picture("split.png")
        self.browser.press("u")
        self.assert_picked(panic - 1, "write N D V refused CAUSE")
        self.assertEqual(self.causes(), [fencing[1], fencing[0], panic])
        self.browser.click("#filter-kinds [data-value=writes]")
        self.assertEqual(self.shown(), len(self.lines) - self.counted("^write"))
        self.assertIsNone(self.browser.run(PLACE, panic - 1))
        self.browser.click("#filter-nodes [data-value='2']")
        self.assertEqual(self.lanes(), ["schedule", "node 1", "device 1"])
        self.browser.press("a")
        self.assertEqual((self.shown(), len(self.lanes())), (len(self.lines), 4))

    def test_ordinary_use(self):
        self.open("ordinary_use")
        self.assert_as_the_trace()
        self.assertEqual(self.lanes()[3:], ["device 1", "group g", "resource a", "resource b"])
        call = self.number("^call 65 2 START a")
        self.click_line(call)
        self.assert_picked(call, "call E N METHOD R")
        self.assertEqual(self.causes(), [call + 1])
        self.browser.press("j")
        self.assert_picked(call + 1, "done E N METHOD R OUTCOME")
        self.browser.picture("ordinary_use.png")
        self.browser.click("#filter-groups [data-value='0']")
        self.assertEqual(self.lanes()[3:], ["device 1"])
        self.assertEqual(self.shown(), len(self.lines) - self.counted(r"^(call|done|rg) |^(propose|ack) .* (clrg|clrs) "))
        self.browser.press("a")
        self.browser.press("/")
        self.browser.press("switch")
        self.assertEqual(self.shown(), self.counted("switch"))
        self.assertEqual(self.browser.text("#found"), f"{self.counted('switch')} found")
        self.browser.press("\ue007")
        self.assertIn("switch", self.browser.text("#picked-line"))

    def test_random(self):
        self.open("random")
        self.assert_as_the_trace()
        start = self.number("^start 257 ")
        self.click_line(start)
        self.assert_picked(start, "start E LIST held LIST base K")
        self.assert_messages_of_start(start)
        self.browser.press("c")
        self.browser.picture("random.png")
        self.assertEqual(self.browser.run("return [viewFrom() <= arguments[0], viewTo() - viewFrom()];", start), [True, 120])
        self.browser.press("0")
        panic = self.number("^down 2 panic excluded")
        self.click_line(panic)
        self.assert_picked(panic, "down N panic excluded E")
        self.assertIn("Excluded", self.lines[[line for line in self.causes() if self.lines[line - 1].startswith("sent")][0] - 1])
        self.browser.picture("random_whole.png")
        heartbeats = {text.split(" ")[1] for text in self.lines if re.match("sent .* Heartbeat ", text)}
        about = [text for text in self.lines if re.match("sent|delivered|dropped|lost", text) and text.split(" ")[1] in heartbeats]
        self.browser.press("h")
        self.assertEqual(self.shown(), len(self.lines) - len(about))

    def assert_messages_of_start(self, start):
        """The panel names the messages of the start's epoch that had come, and they are drawn strongly."""
        ends = {text.split(" ")[1] for text in self.lines[:start] if text.startswith("delivered")}
        wanted = [i for i, text in enumerate(self.lines[:start], 1)
                  if re.match("sent .* (Collect|Promise|SeizeQuorum . |SeizeData . |Seized|Install|Ready) ", text)
                  and epoch_of(text) == 257 and text.split(" ")[1] in ends]
        self.assertGreater(len(wanted), 10)
        self.assertLessEqual(set(wanted), set(self.causes()))
        drawn = self.browser.run("return [...pick.packets].map(packet => packet.line);")
        self.assertEqual(sorted(set(drawn)), wanted)

    def test_moving(self):
        self.open("random")
        width = "return Math.round(viewTo() - viewFrom());"
        whole = self.browser.run(width)
        self.browser.press("+++")
        self.assertLess(self.browser.run(width), whole / 3)
        begin = self.browser.run("return viewFrom();")
        self.browser.press("\ue014")
        self.assertGreater(self.browser.run("return viewFrom();"), begin)
        begin = self.browser.run("return [viewFrom(), scroller.scrollTop];")
        self.browser.drag_drawing(-200, -60)
        self.assertGreater(self.browser.run("return viewFrom();"), begin[0])
        self.assertGreater(self.browser.run("return scroller.scrollTop;"), begin[1])
        near = self.browser.run(width)
        self.browser.turn_wheel(-300)
        self.assertLess(self.browser.run(width), near)
        self.browser.click("#fit")
        self.assertEqual(self.browser.run(width), whole)
        self.browser.press("?")
        self.assertIn("Keys and mouse", self.browser.text("#detail"))
        self.browser.press("l")
        self.assertIn("an attempt ends, with its cause", self.browser.text("#detail"))

    def test_other_traces(self):
        """A trace without lines, and one whose only node is told by a packet's bytes."""
        for text in ("", "up 1\n", "sent 1 31 32 Collect 021f000000000000005f80000000\nlost 1\n", "clock 5\nrefused 9 line\n"):
            with tempfile.NamedTemporaryFile("w", suffix=".trace") as trace:
                trace.write(text)
                trace.flush()
                self.browser.open(trace.name)
            self.assertEqual(self.browser.run("return data.lines.texts;"), text.splitlines())
            self.browser.press("j")
            self.assertEqual(self.browser.errors(), [])

    def test_many_lines(self):
        lines = (FOLDER / "random.trace").read_text().splitlines()
        with tempfile.NamedTemporaryFile("w", suffix=".trace") as trace:
            trace.writelines(line + "\n" for line in long_trace.long_trace(lines, 100_000))
            trace.flush()
            seconds = self.browser.open(trace.name)
        print(f"100,000 lines opened in {seconds:.1f} s")
        self.assertEqual(self.shown(), 100_000)
        # On a machine that is busy with other things the time tells nothing of the page.
        if os.getloadavg()[0] < os.cpu_count():
            self.assertLess(seconds, SECONDS_TO_OPEN)


if __name__ == "__main__":
    unittest.main()
