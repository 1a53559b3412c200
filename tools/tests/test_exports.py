"""Traces for Perfetto and Wireshark."""
import io
import json
import shutil
import struct
import subprocess
import tempfile
import unittest
from pathlib import Path
from unittest import mock

from pm_tools.frames import made
from pm_tools.pcapng import write_packets
from pm_tools.playing import flat, played
from pm_tools.program import Program
from pm_tools.trace import read_json, read_trace, with_bytes
from support import DATA, TOP, built_program, call, needs_program

TSHARK = shutil.which("tshark")
DISSECTOR = TOP / "tools/wireshark/gefsunk_fis.lua"
FIELDS = ("frame.number", "fis.up", "fis.made", "fis.port", "fis.type", "fis.tag", "fis.status", "fis.lba", "fis.sactive")


class Perfetto(unittest.TestCase):
    def setUp(self) -> None:
        said = call("perfetto", DATA / "bad-sector.json")
        self.assertEqual(said.status, 0)
        self.events = json.loads(said.out)["traceEvents"]

    def test_each_event_is_of_its_form(self) -> None:
        named = {(event["pid"], event["tid"]) for event in self.events if event["name"] == "thread_name"}
        for event in self.events:
            self.assertIn(event["ph"], "MXistf")
            if event["ph"] != "M":
                self.assertIn((event["pid"], event["tid"]), named)
            if event["ph"] == "X":
                self.assertGreater(event["dur"], 0)

    def test_slices_of_a_slot_do_not_cross(self) -> None:
        slots = [event for event in self.events if event["ph"] == "X" and event["pid"] == 3]
        self.assertEqual(sum(event["name"] == "issued" for event in slots) * 2, len(slots))
        self.assertIn("ticket 3: device-error 41 40", {event["name"] for event in slots})

    def test_an_arrow_begins_and_ends(self) -> None:
        for number in {event["id"] for event in self.events if event["ph"] == "s"}:
            phases = [event["ph"] for event in self.events if event.get("id") == number]
            self.assertEqual((phases[0], phases[-1]), ("s", "f"))

    def test_faults_are_instants(self) -> None:
        self.assertIn("fault task-file", {event["name"] for event in self.events if event["ph"] == "i"})

    def test_what_is_no_trace_is_refused(self) -> None:
        self.assertEqual((call("perfetto", TOP / "VERSION").status, call("perfetto", "no-such").status), (1, 4))


class Bytes(unittest.TestCase):
    def test_frames_are_made_of_words(self) -> None:
        for words, port, slots, wanted in (
                ("h2d read-queued lba 8 sectors 1", 3, (5,), "2783600108000040000000002800000000000000"),
                ("h2d control 04 reset", 15, (31,), "270f0000000000a0000000000000000400000000"),
                ("h2d write-pm port 0 pscr[2] value 00000301", 15, (), "278fe80203000000000000000100000000000000"),
                ("d2h status 50 error 01 value 96690101", 15, (), "340f500101699600000000000100000000000000"),
                ("d2h status 50 error 01 signature", 2, (), "3402500101000000000000000100000000000000"),
                ("bits status 41 DRDY ERR error 40 UNC sactive 00000004 notify", 1, (), "a181414004000000"),
                ("setup tag 3 to host offset 512 count 1024 auto", 0, (),
                 "41a00000030000000000000000000000000200000004000000000000"),
                ("activate", 4, (), "39040000"),
                ("data bytes 4", 4, (), "4604000000000000"),
                ("pio status 58 bytes 512", 0, (), "5f20580000000000000000000000000000020000")):
            self.assertEqual(made(words, port, slots).hex(), wanted, words)

    def test_blocks_are_played_out(self) -> None:
        self.assertEqual(list(flat(["# one", "repeat 2 # two", "poll", "end", "expect x", "came 0"])), ["poll", "poll", "came 0"])


def dissected() -> str:
    """The fields that tshark finds in the packets of the data."""
    words = [word for field in FIELDS for word in ("-e", field)]
    with tempfile.TemporaryDirectory() as folder:
        path = Path(folder) / "honest.pcapng"
        with path.open("wb") as out:
            write_packets(with_bytes(read_json((DATA / "honest.json").read_text().splitlines())), False, out)
        run = subprocess.run([str(TSHARK), "-X", f"lua_script:{DISSECTOR}", "-r", str(path), "-T", "fields", *words],
                             capture_output=True, timeout=300)
    return run.stdout.decode()


def make_golden() -> None:
    """Writes what tshark finds to the data: tests/data/make calls it."""
    (DATA / "honest.tshark").write_text(dissected())


class Packets(unittest.TestCase):
    def test_the_file_is_whole_blocks(self) -> None:
        out = io.BytesIO()
        count = write_packets(read_trace(TOP / "cases/trace/json.out"), True, out)
        kinds, data, at = [], out.getvalue(), 0
        while at < len(data):
            kind, length = struct.unpack_from("<II", data, at)
            self.assertEqual(struct.unpack_from("<I", data, at + length - 4)[0], length)
            kinds.append(kind)
            at += length
        self.assertEqual((kinds.count(6), kinds.count(1)), (count, 2))

    @unittest.skipUnless(TSHARK, "needs tshark")
    def test_tshark_shows_the_fields(self) -> None:
        self.assertEqual(dissected(), (DATA / "honest.tshark").read_text())

    def test_what_is_no_trace_is_refused(self) -> None:
        self.assertEqual((call("pcapng", TOP / "VERSION").status, call("pcapng", "no-such").status), (1, 4))
        self.assertEqual(call("pcapng", "--play", TOP / "VERSION", TOP / "VERSION").status, 2)


@needs_program
class Played(unittest.TestCase):
    def setUp(self) -> None:
        path = built_program()
        assert path is not None
        self.program = Program(path)

    def test_all_that_devices_send_under_run_has_bytes(self) -> None:
        trace = played(self.program, (TOP / "examples/one-read.scenario").read_text())
        ups = [step for step in trace.steps if step.act == "takes" and step.target == "host"]
        self.assertTrue(ups and all(step.raw for step in ups))
        [*_, data] = [step.raw for step in ups if step.frame == "data bytes 512" and step.raw]
        self.assertEqual(data[4:8].hex(), "08090a0b")

    def test_all_but_data_of_a_guest_has_bytes(self) -> None:
        trace = played(self.program, (TOP / "cases/guest/four-queued-reads.scenario").read_text())
        without = {(step.frame or "").split()[0] for step in trace.steps if step.raw is None}
        self.assertTrue(any(step.raw for step in trace.steps))
        self.assertLessEqual(without, {"data", "activate"})

    def test_the_scenario_of_the_data_prints_it_still(self) -> None:
        """Where the trace has changed on purpose, tests/data/make makes the data anew."""
        for name in ("honest", "bad-sector"):
            text = (DATA / f"{name}.scenario" if name == "honest" else TOP / f"examples/{name}.scenario").read_text()
            self.assertEqual(self.program.play(["run", "--json"], text).printed, (DATA / f"{name}.json").read_text())

    def test_a_scenario_that_ends_otherwise_is_told(self) -> None:
        with tempfile.TemporaryDirectory() as folder, mock.patch.dict("os.environ", {"PM_TRACE": str(self.program.path)}):
            path = Path(folder) / "bad"
            path.write_text("nonsense\n")
            self.assertEqual(call("pcapng", "--play", path).status, 1)
