"""The reader, against every form of line in docs/TRACE.md."""
import pathlib
import unittest

from clreplay_timeline.sentences import LATER, causes, examples, page_text, rows_of, shapes_of
from clreplay_timeline.trace import FORMS, NotATrace, read_line, read_trace

FOLDER = pathlib.Path(__file__).resolve().parent
DIGEST = "e3b0c44298fc1c149afbf4c8996fb92427ae41e4649b934ca495991b7852b855"
# Lines of forms for which the page has no example of their own: the form and the line
SAMPLES = (
    ("down N stopped", "down 16 stopped"),
    ("dropped P pool", "dropped 70 pool"),
    ("answer N Q unknown", "answer 2 4 unknown"),
    ("quorum node N VOTE absent", "quorum node 2 0 absent"),
    ("quorum device D VOTES lost", "quorum device 2 0 lost"),
    ("quorum device D VOTES off", "quorum device 16 3 off"),
    ("table ccr_checksum X", f"table ccr_checksum {DIGEST}"),
    ("table KEY VALUE", "table web.Nodelist\t1,2"),
    ("table KEY VALUE", "table web.RG_affinities\t"),
    ("clock S", "clock 3600"),
    ("queued", "queued"),
    ("armed", "armed"),
    ("rounds done", "rounds done"),
    ("skipped up", "skipped up"),
    ("skipped down", "skipped down"),
    ("skipped no-packet", "skipped no-packet"),
    ("skipped no-work", "skipped no-work"),
    ("skipped no-monitor", "skipped no-monitor"),
    ("ended E foreign N", "ended 193 foreign 3"),
    ("server D N done", "server 1 2 done"),
    ("server D N again", "server 1 2 again"),
    ("server D stopped old", "server 1 stopped old"),
    ("server D stopped new", "server 1 stopped new"),
    ("served A CLIENT PORT N", "served a 10 80 2"),
    ("served A CLIENT PORT none", "served a 10 80 none"),
    ("forgot A CLIENT PORT", "forgot a 10 80"),
    ("skipped no-president", "skipped no-president"),
    ("skipped no-address", "skipped no-address"),
    ("skipped no-server", "skipped no-server"),
    ("skipped server", "skipped server"),
    ("refused K KIND", "refused 12 number"),
    ("too-large K", "too-large 200001"),
    # what stands in place of the words in capitals
    ("sent P A B KIND BYTES", "sent 7 1 2 SeizeQuorum 1 0501"),
    ("sent P A B KIND BYTES", "sent 7 1 2 Prepared 12 0c01"),
    ("device N D COMMAND = ANSWER", "device 1 1 keys = keys none"),
    ("device N D COMMAND = ANSWER", "device 1 1 keys = keys a1 b2"),
    ("device N D COMMAND = ANSWER", "device 2 1 holder = reservation a1 5"),
    ("device N D COMMAND = ANSWER", "device 2 1 swap 65 130 = miscompare 129"),
    ("device N D COMMAND = ANSWER", "device 2 1 release 6 a1 = invalid-release"),
    ("ended E votes HAVE NEED D:RESULT ..", "ended 130 votes 2 4 none"),
    ("ended E votes HAVE NEED D:RESULT ..", "ended 130 votes 2 4 1:greater-193 2:contended-2a00000003 3:fault"),
    ("start E LIST held LIST base K", "start 65 1,2,16 held none base 0"),
    ("adopt E N R FLAGS", "adopt 129 2 db prmfs"),
    ("answer N Q refused CAUSE", "answer 1 2 refused cycle a,b,c"),
    ("answer N Q refused CAUSE", "answer 1 2 refused lose-quorum 1 2"),
    ("answer N Q refused CAUSE", "answer 1 2 refused record-full 65537"),
    ("answer N Q refused CAUSE", "answer 1 2 refused unknown web"),
    ("why G N REASON", "why web 2 load mem"),
    ("write E N D V accepted", "write 65 1 1 18446744073709551615 accepted"),
)
# Lines that no cluster's trace has; those of a reservation schedule come first
OTHERS = (
    "good", "conflict", "invalid-release", "keys none", "keys a1", "reservation none", "reservation a1 5", "data 7",
    "word 65", "miscompare 65", "no-path", "powered", "checked 3", "", "up", "up 0", "up 33", "up 01", "up 1 ",
    " up 1", "up  1", "Up 1", "up 1\r", "down 1 panic", "down 1 panic fenced 17", "ticked", "member 1 64",
    "installed 2 0", "sent 1 1 2 Heartbeat", "sent 0 1 2 Heartbeat 01", "sent 1 1 2 Heartbeat 0",
    "sent 1 1 2 Heartbeat 0A", "sent 1 1 2 Hello 01", "sent 1 1 2 Seized 01", "sent 1 1 2 Collect 1 01",
    "delivered 1 1", "dropped 1", "dropped 1 lost", "device 1 1 keys", "device 1 1 keys = a1",
    "device 1 1 write -1 = good", "device 1 1 reserve 2 a1 = good", "write 65 1 1 7 refused fenced",
    "write 1 1 7 accepted", "write 1 1 7 refused", "attempt 65 2,1", "attempt 65 1,1", "attempt 65 1,33", "attempt 65",
    "ended 130 votes 1 2", "ended 130 votes 1 2 1:gone", "ended 130 alone", "start 65 1,2 held 1",
    "start 65 1,2 held 1 base", "base 65 1", "adopt 65 1 db", "adopt 65 1 db mr", "asked 1", "propose 65 1 ",
    "answer 1 1", "answer 1 1 refused", "answer 1 1 refused because", "call 65 1 Start db", "done 65 1 START db",
    "probe 1 db bad", "rg web 1 UP", "rs db 1 FAULTED", "why web 1 because", "quorum votes 3",
    "quorum node 1 2 member", "table ccr_checksum e3b0", "table key value", "clock", "clock -1", "rounds", "skipped",
    "skipped no-reason", "refused 1 because", "write 65 1 1 18446744073709551616 accepted", "# view brief",
)


class Reading(unittest.TestCase):
    def test_examples_of_the_page(self):
        found = examples()
        self.assertGreater(len(found), 40)
        for shapes, text in found:
            with self.subTest(text):
                self.assertIn(read_line(1, text).form.shape, shapes)

    def test_samples(self):
        for shape, text in SAMPLES:
            with self.subTest(text):
                self.assertEqual(read_line(1, text).form.shape, shape)

    def test_each_form_has_a_line(self):
        tried = {shape for shape, _ in SAMPLES} | {read_line(1, text).form.shape for _, text in examples()}
        self.assertEqual({form.shape for form in FORMS} - tried, set())

    def test_forms_are_those_of_the_page(self):
        of_page = {shape for cells in rows_of(page_text(), "line") for shape in shapes_of(cells[0])}
        self.assertGreater(len(of_page), 50)
        self.assertEqual({form.shape for form in FORMS}, of_page | set(LATER))

    def test_each_cause_of_the_page_is_read(self):
        self.assertGreater(len(causes()), 20)
        for cause in causes():
            rest = {"ask": " 1", "unknown": " x", "in-use": " x", "not-listed": " 1", "cycle": " a,b",
                    "lose-quorum": " 1 2", "record-full": " 70000"}.get(cause, "")
            with self.subTest(cause):
                read_line(1, f"answer 1 1 refused {cause}{rest}")

    def test_other_lines_are_told_by_number(self):
        for text in OTHERS:
            with self.subTest(text), self.assertRaises(NotATrace) as told:
                read_trace(b"up 1\nticked 1\n" + text.encode() + b"\nup 2\n")
            self.assertEqual(told.exception.number, 3)

    def test_nothing_follows_a_closing_line(self):
        self.assertEqual(len(read_trace(b"up 1\nrefused 6 line\n")), 2)
        with self.assertRaises(NotATrace) as told:
            read_trace(b"up 1\nrefused 6 line\nup 2\n")
        self.assertEqual(told.exception.number, 3)

    def test_ends(self):
        self.assertEqual(read_trace(b""), [])
        self.assertEqual(len(read_trace(b"up 1\nup 2")), 2)
        with self.assertRaises(NotATrace):
            read_trace(b"up 1\n\n")

    def test_fields(self):
        fields = read_line(9, "start 129 1,3 held 2 base 4").fields
        self.assertEqual(fields, {"E": "129", "LIST": "1,3", "LIST2": "2", "K": "4"})
        self.assertEqual(read_line(9, "propose 65 3 clrg create g 1,2").fields["WORDS"], "clrg create g 1,2")

    def test_bytes_that_are_no_text(self):
        line = read_trace(b"answer 1 1 refused unknown \xff\n")[0]
        self.assertEqual(line.fields["CAUSE"], "unknown \\xff")

    def test_whole_traces(self):
        for path in sorted(FOLDER.glob("*.trace")):
            with self.subTest(path.name):
                data = path.read_bytes()
                self.assertEqual([line.text for line in read_trace(data)], data.decode().splitlines())


if __name__ == "__main__":
    unittest.main()
