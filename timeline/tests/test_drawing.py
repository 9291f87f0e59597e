"""What is made of the lines: bands, tracks, packets, marks, and what led to what."""
import pathlib
import re
import unittest

from clreplay_timeline.devices import Device, Devices
from clreplay_timeline.drawing import Drawing
from clreplay_timeline.events import first_lines
from clreplay_timeline.packets import read_message
from clreplay_timeline.schedule import Alignment, NotASchedule, read_schedule
from clreplay_timeline.trace import read_trace

FOLDER = pathlib.Path(__file__).resolve().parent


def quiet(_done, _total):
    """Tells nothing of how far it is."""


def drawing_of(name, with_schedule=True):
    schedule = read_schedule((FOLDER / f"{name}.schedule").read_bytes()) if with_schedule else None
    return Drawing(read_trace((FOLDER / f"{name}.trace").read_bytes()), schedule, quiet)


def drawn(text):
    return Drawing(read_trace(text.encode()), None, quiet).data("text")


def lane(data, name):
    return next(lane for lane in data["lanes"] if lane["id"] == name)


class NodeLanes(unittest.TestCase):
    def test_bands_of_a_split(self):
        data = drawing_of("split").data("split")
        self.assertEqual([band[:4] for band in lane(data, "node 1")["bands"]], [
            [1, 3, "forming", 0], [3, 5, "attempting", 65], [5, 8, "member", 65], [8, 10, "attempting", 129],
            [10, 18, "member", 129]])
        self.assertEqual([band[:4] for band in lane(data, "node 2")["bands"]], [
            [1, 2, "down", 0], [2, 6, "forming", 0], [6, 13, "member", 65], [13, 14, "down", 0], [14, 15, "forming", 0],
            [15, 16, "attempting", 130], [16, 18, "forming", 0]])
        self.assertEqual(data["memberships"], [
            [65, 3, 4, True, [1, 2]], [129, 8, 9, True, [1]], [130, 15, 16, False, [2]]])

    def test_a_promise_ends_a_membership(self):
        data = drawing_of("random").data("random")
        bands = [band for band in lane(data, "node 3")["bands"] if band[2] == "member"]
        self.assertEqual(bands[0][3], 65)
        ending = data["lines"]["texts"][bands[0][1] - 1]
        self.assertRegex(ending, "^sent [0-9]+ 3 1 Promise ")
        self.assertGreater(read_message(ending.split(" ")[-1])[1], 65)

    def test_nodes_that_are_only_sent_to(self):
        data = drawn("up 1\nticked 1\nsent 1 1 2 Heartbeat 01010000000000000000000000000000000000\n")
        self.assertEqual(lane(data, "node 2")["bands"], [[1, 4, "down", 0, ""]])


class DeviceLanes(unittest.TestCase):
    def test_tracks(self):
        tracks = lane(drawing_of("random").data("random"), "device 1")["tracks"]
        self.assertEqual([band[4] for band in tracks["keys"]], ["1,2,4", "1,4", "1", "1,2", "1,2,4"])
        self.assertEqual([band[4] for band in tracks["reservation"]], ["none", "node 1, type 5"])
        self.assertEqual([band[3] for band in tracks["word"]], [0, 65, 129, 257])

    def test_answers_show_what_was_followed(self):
        """Each answer tells the keys and the word as the commands before it have left them."""
        schedule, compared = read_schedule((FOLDER / "random.schedule").read_bytes()), 0
        devices = Devices(schedule)
        for line in read_trace((FOLDER / "random.trace").read_bytes()):
            answer = line.fields.get("ANSWER", "").split(" ")
            if answer[0] in ("keys", "word"):
                device, compared = devices.at(int(line.fields["D"])), compared + 1
                found = [key for _, key in device.keys] if answer[0] == "keys" else [device.word]
                self.assertEqual(found, answer[1:], line.text)
            devices.take(line)
        self.assertGreater(compared, 25)

    def test_what_a_failed_command_leaves_open(self):
        data = drawn("device 1 1 keys = keys 2a00000001 2a00000002\ndevice 1 1 preempt 5 2a00000001 2a00000002 = failed\n")
        tracks = lane(data, "device 1")["tracks"]
        self.assertEqual([band[4] for band in tracks["keys"]], ["1,2", "?"])
        self.assertEqual(tracks["reservation"][-1][4], "?")

    def test_a_quorum_server_tells_that_a_failed_command_was_done(self):
        data = drawn(
            "device 1 1 keys = keys 2a00000001 2a00000002\nserver 1 1 done\nserver 1 1 again\n"
            "device 1 1 preempt 5 2a00000001 2a00000002 = failed\n")
        self.assertEqual([band[4] for band in lane(data, "device 1")["tracks"]["keys"]], ["1,2", "1"])

    def test_each_command(self):
        device = Device([])
        device.took(1, ["register", "0", "a1"])
        device.took(2, ["ignore", "a2"])
        device.took(1, ["reserve", "5", "a1"])
        self.assertEqual((device.keys, device.holder), ([(1, "a1"), (2, "a2")], "node 1, type 5"))
        device.took(2, ["release", "5", "a2"])
        device.took(1, ["ignore", "a3"])
        self.assertEqual((device.keys, device.holder), ([(1, "a3"), (2, "a2")], "node 1, type 5"))
        device.took(1, ["register", "a3", "0"])
        self.assertEqual((device.keys, device.holder), ([(2, "a2")], None))
        device.took(2, ["clear", "a2"])
        self.assertEqual(device.keys, [])

    def test_a_brief_trace_tells_only_the_words_of_starts(self):
        tracks = lane(drawing_of("split").data("split"), "device 1")["tracks"]
        self.assertEqual([band[4] for band in tracks["keys"]], ["1,2", "?"])
        self.assertEqual([band[4] for band in tracks["word"]], ["0", "?", "65", "?", "129", "?"])


class ResourceLanes(unittest.TestCase):
    def test_states(self):
        data = drawing_of("ordinary_use").data("ordinary use")
        self.assertEqual(data["groups"], ["g"])
        stripes = dict(lane(data, "resource b")["stripes"])
        self.assertEqual([band[2] for band in stripes[1]], ["up", "off"])
        self.assertEqual([band[2] for band in stripes[2]], ["up"])
        stripes = dict(lane(data, "group g")["stripes"])
        self.assertEqual([band[2] for band in stripes[1]], ["partly", "online", "partly", "off"])
        self.assertEqual([band[2] for band in stripes[2]], ["partly", "online"])

    def test_adopted_resources_go_on_without_a_gap(self):
        bands = dict(lane(drawing_of("random").data("random"), "resource ra")["stripes"])[1]
        self.assertEqual([band[2] for band in bands], ["up", "monitored"])

    def test_failures(self):
        setup = "ack 65 1 clrg create g 1\nack 65 2 clrs create a g app\n"
        data = drawn(setup + "call 65 1 START a\ndone 65 1 START a timeout\nack 65 3 clrs disable a\n")
        self.assertEqual([band[2] for band in dict(lane(data, "resource a")["stripes"])[1]], ["faulted", "off"])
        data = drawn(setup + "ack 65 3 clrs set a Failover_mode SOFT\ncall 65 1 START a\ndone 65 1 START a failure\n")
        self.assertEqual(dict(lane(data, "resource a")["stripes"])[1], [])
        data = drawn(setup + "done 65 1 START a success\ncall 65 1 STOP a\ndone 65 1 STOP a failure\nrs a 1 OFFLINE\n")
        self.assertEqual([band[2] for band in dict(lane(data, "resource a")["stripes"])[1]], ["up", "stop-failed", "up"])


    def test_an_order_to_clear(self):
        data = drawn(
            "ack 65 1 clrg create g 2\nack 65 2 clrs create a g app\ndone 65 2 STOP a failure\n"
            "sent 1 1 2 Order 5 0e01000000000000004100000000000000050000000001" + b"a".hex() + "\ndelivered 1 1 2\n")
        self.assertEqual([band[2] for band in dict(lane(data, "resource a")["stripes"])[2]], ["stop-failed", "off"])


class PacketWays(unittest.TestCase):
    def test_ways(self):
        data = drawn(
            "sent 1 1 2 Collect 0201000000000000004100000003\nsent 2 1 3 Collect 0201000000000000004100000003\n"
            "sent 3 1 4 Collect 02\nrepeated 1 4\ndelivered 1 1 2\nlost 2\ndropped 3 pool\n")
        rows = [row[:5] + [data["words"][row[6]], row[7], data["words"][row[8]]] for row in data["packets"]]
        self.assertEqual(rows, [
            [1, 1, 5, 1, 2, "delivered", 65, "members 1,2"], [2, 2, 6, 1, 3, "lost", 65, "members 1,2"],
            [3, 3, 7, 1, 4, "dropped: pool", 0, ""], [4, 4, 0, 1, 2, "under way", 65, "members 1,2"]])

    def test_messages(self):
        epoch = "0000000000000041"
        for text, wanted in (
                ("0101" + epoch + epoch + "01", ("Heartbeat", 65, "promised 65, session 65, a member")),
                ("0402" + epoch + "00000000000000c1", ("Nack", 65, "promised 193")),
                ("0702" + epoch + "0102" + "0000000000000081" + "0000", ("Seized", 65, "device 1: greater 129")),
                ("0b01" + epoch + "0000000000000001" + "00000003" + b"abc".hex(), ("Prepare", 65, "place 1: abc")),
                ("0e01" + epoch + "0000000000000002" + "02" + "00000001" + b"a".hex(), ("Order", 65, "order 2: START a")),
                ("0f02" + epoch + "0000000000000002" + "01", ("Done", 65, "order 2: failure"))):
            self.assertEqual(read_message(text), wanted)
        for text in ("01", "ff01", "0101" + epoch, "1001" + epoch + epoch + "00000009ab"):
            self.assertIsNone(read_message(text))

    def test_every_packet_of_a_whole_trace_is_understood(self):
        for packet in drawing_of("random").packets.by_number.values():
            self.assertTrue(packet.epoch or packet.kind == "Heartbeat", packet.kind)


class Causes(unittest.TestCase):
    def test_events(self):
        lines = read_trace(
            b"up 1\nticked 1\nsaved 1\nattempt 65 1\nsaved 1\ndevice 1 1 ignore a1 = good\ndevice 1 1 word = word 0\n"
            b"saved 1\ninstalled 1 65\nserver 1 1 done\nserver 1 1 again\ndevice 1 1 write 7 = good\n"
            b"write 65 1 1 7 accepted\nwrite 2 1 5 refused not-member\nrounds done\n")
        self.assertEqual(first_lines(lines), [1, 2, 2, 2, 5, 5, 7, 7, 7, 10, 10, 10, 10, 14, 15])

    def test_origins(self):
        data = drawing_of("split").data("split")
        # a start comes of its attempt, a panic of the refused write, and that of the start without the node
        self.assertEqual([data["lines"]["origins"][line - 1] for line in (4, 5, 13, 16)], [3, 4, 12, 15])
        self.assertEqual(data["because"], {12: [9]})

    def test_what_a_command_and_an_ack_rest_on(self):
        data = drawing_of("random").data("random")
        texts = data["lines"]["texts"]
        ack = next(i for i, text in enumerate(texts, 1) if text.startswith("ack 65 3 "))
        kinds = [texts[cause - 1].split(" ")[2:6] for cause in data["because"][ack]]
        self.assertEqual(sorted(kinds), [
            ["1", "2", "Prepare", "3"], ["1", "3", "Prepare", "3"], ["1", "4", "Prepare", "3"],
            ["2", "1", "Prepared", "3"], ["3", "1", "Prepared", "3"], ["4", "1", "Prepared", "3"]])
        command = next(i for i, text in enumerate(texts, 1) if text.startswith("device 3 2 ignore"))
        packet = texts[data["because"][command][0] - 1].split(" ")[1]
        self.assertTrue(any(re.match(f"sent {packet} 1 3 Install ", text) for text in texts))

    def test_panics_and_writes_come_of_what_they_rest_on(self):
        lines = (
            "device 1 1 write 7 = good", "write 65 1 1 7 accepted", "write 1 1 8 refused not-member", "down 1 crash",
            "done 65 2 STOP db failure", "saved 2", "down 2 panic stop db", "write 3 1 5 refused fenced", "down 3 panic fenced 1")
        self.assertEqual(drawn("\n".join(lines))["lines"]["origins"], [0, 1, 0, 0, 0, 0, 5, 0, 8])

    def test_each_delivery_comes_of_its_sending(self):
        data = drawing_of("random").data("random")
        texts, origins = data["lines"]["texts"], data["lines"]["origins"]
        for text, origin in zip(texts, origins):
            if text.startswith("delivered "):
                self.assertTrue(texts[origin - 1].startswith("sent " + text.split(" ", 1)[1] + " "))

    def test_marks(self):
        data = drawing_of("split").data("split")
        self.assertEqual([mark[3] for mark in data["marks"] if mark[1] == "node 2"], [
            "boot", "member", "refused-write", "panic", "boot", "attempt", "ended"])
        self.assertIn([16, "node 2", 0, "ended", [
            "ended: 1 of 2 votes, 1:not-registered", "ended: 1 of 2 votes", "1 of 2 votes", "votes"]], data["marks"])


class Schedules(unittest.TestCase):
    def test_each_line_has_its_step(self):
        for name in ("split", "ordinary_use", "random"):
            data = drawing_of(name).data(name)
            self.assertIsNone(data["stopped"])
        covered = sum(end - begin for begin, end, _, _ in data["steps"])
        self.assertEqual(covered, len(data["lines"]["texts"]))

    def test_a_schedule_that_is_not_the_traces(self):
        lines = read_trace(b"up 1\nticked 1\nup 2\n")
        steps = read_schedule(b"schedule cluster 1\ncluster 2a\nnodes 2\nboot 1\ntick 1\n# no line\ncrash 2\nend\n").steps
        self.assertEqual(Alignment(steps, lines, first_lines(lines)).stopped.number, 7)

    def test_headers(self):
        schedule = read_schedule(
            b"schedule cluster 2\ncluster 2a\nnodes 3\nconfigured 1 2\ndevice 1 server 1 2 3\ndevice 2 data 1\nboot 1\n")
        self.assertEqual(schedule.first_keys(1), [(1, "2a00000001"), (2, "2a00000002")])
        self.assertEqual((schedule.first_keys(2), len(schedule.steps)), ([], 1))
        for text in (b"", b"schedule pr 1\nsenders 1\n", b"schedule cluster 1\nnodes 2\n", b"schedule cluster 1\ncluster 2a\nend\n"):
            with self.assertRaises(NotASchedule):
                read_schedule(text)


if __name__ == "__main__":
    unittest.main()
