"""The program: its page, its words and its statuses."""
import html.parser
import importlib.util
import json
import pathlib
import subprocess
import sys
import tempfile
import unittest
from unittest import mock

from clreplay_timeline import page

FOLDER = pathlib.Path(__file__).resolve().parent
PROGRAM = FOLDER.parent / "clreplay-timeline"


def run(*words, text=None):
    return subprocess.run([sys.executable, PROGRAM, *words], input=text, capture_output=True, timeout=120)


def lacks():
    """The Debian packages that are missing."""
    lacking = [] if importlib.util.find_spec("jinja2") else ["python3-jinja2"]
    return lacking + ([] if page.LIBRARY.exists() else ["libjs-d3"])


class Parts(html.parser.HTMLParser):
    """The attributes of a page that would fetch something, and the text of its data."""

    def __init__(self, text):
        super().__init__()
        self.fetched, self.data, self.inside = [], "", False
        self.feed(text)

    def handle_starttag(self, tag, attributes):
        self.fetched += [value for name, value in attributes if name in ("src", "href", "srcset", "action")]
        self.inside = ("type", "application/json") in attributes

    def handle_endtag(self, tag):
        self.inside = False

    def handle_data(self, data):
        if self.inside:
            self.data += data


@unittest.skipIf(lacks(), "Debian packages are missing: " + " ".join(lacks()))
class Program(unittest.TestCase):
    def test_page(self):
        made = run("--schedule", FOLDER / "split.schedule", FOLDER / "split.trace")
        self.assertEqual(made.returncode, 0, made.stderr)
        self.assertEqual(made.stderr, b"clreplay-timeline: 17 lines drawn\n")
        parts = Parts(made.stdout.decode())
        self.assertEqual(parts.fetched, [])
        texts = json.loads(parts.data)["lines"]["texts"]
        self.assertEqual(texts, (FOLDER / "split.trace").read_text().splitlines())

    def test_standard_input(self):
        trace = (FOLDER / "split.trace").read_bytes()
        for words in ((), ("-",)):
            made = run(*words, text=trace)
            self.assertEqual((made.returncode, made.stdout[:15]), (0, b"<!DOCTYPE html>"))

    def test_text_that_would_end_a_script(self):
        made = run(text=b"propose 65 1 </script><!--\n")
        self.assertEqual(json.loads(Parts(made.stdout.decode()).data)["lines"]["texts"], ["propose 65 1 </script><!--"])

    def test_empty_trace(self):
        self.assertEqual(run(text=b"").returncode, 0)

    def test_other_lines(self):
        for text, number in ((b"good\n", 1), (b"up 1\nkeys none\n", 2), (b"up 1\n\nup 2\n", 2)):
            made = run(text=text)
            self.assertEqual((made.returncode, made.stdout), (2, b""))
            self.assertIn(f"line {number} is no line of a cluster's trace".encode(), made.stderr)

    def test_schedule_of_reservations(self):
        with tempfile.NamedTemporaryFile(suffix=".schedule") as schedule:
            schedule.write(b"schedule pr 1\nsenders 1\n")
            schedule.flush()
            made = run("--schedule", schedule.name, text=b"up 1\n")
        self.assertEqual((made.returncode, made.stdout), (2, b""))
        self.assertIn(b"line 1 of the schedule", made.stderr)

    def test_output_that_fails(self):
        with open("/dev/full", "wb") as full:
            made = subprocess.run([sys.executable, PROGRAM], input=b"up 1\n", stdout=full, stderr=subprocess.PIPE, timeout=120)
        self.assertEqual(made.returncode, 5)
        self.assertEqual(made.stderr, b"clreplay-timeline: the page could not be written: No space left on device\n")

    def test_words_and_files(self):
        for words in (("a", "b"), ("--other",), (FOLDER / "no-such-file",), (FOLDER,), ("--schedule", FOLDER, FOLDER / "split.trace")):
            made = run(*words, text=b"")
            self.assertEqual((made.returncode, made.stdout), (2, b""))
            self.assertTrue(made.stderr)


class WithoutPackages(unittest.TestCase):
    def test_without_jinja2(self):
        made = subprocess.run([sys.executable, "-S", PROGRAM], input=b"up 1\n", capture_output=True, timeout=120)
        self.assertEqual((made.returncode, made.stdout), (2, b""))
        self.assertIn(b"install the Debian package python3-jinja2", made.stderr)

    def test_without_the_library(self):
        with mock.patch.object(page, "LIBRARY", FOLDER / "no-such-file"):
            with self.assertRaisesRegex(page.Missing, "install the Debian package libjs-d3"):
                page.library()


if __name__ == "__main__":
    unittest.main()
