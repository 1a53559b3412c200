"""The sentences that are checked on outputs. Each edit of a true output makes one of them false, and is to be found by it."""
import json
import os
import stat
import tempfile
import unittest
from pathlib import Path
from typing import Any, Callable, Optional
from unittest import mock

from pm_tools.fuzz import verdict
from pm_tools.fuzz_check import Checker, Violated
from pm_tools.fuzz_make import Maker
from pm_tools.media import Disk, Write, opening
from pm_tools.playing import flat
from pm_tools.program import Program
from pm_tools.trace import read_json
from support import DATA, built_program, call, needs_program

SCENARIO = list(flat((DATA / "honest.scenario").read_text().splitlines()))
OUTPUT = [json.loads(line) for line in (DATA / "honest.json").read_text().splitlines()]

Lines = list[dict[str, Any]]


def clause_of(lines: Lines) -> Optional[str]:
    """Which sentence an output violates."""
    try:
        Checker(SCENARIO).check(read_json(json.dumps(line) for line in lines))
    except Violated as found:
        return found.clause
    return None


def printed(lines: Lines, start: str, which: int = 0) -> int:
    """Where a printed line is that begins so."""
    return [i for i, line in enumerate(lines) if line.get("printed", "").startswith(start)][which]


def step(lines: Lines, words: str, which: int = 0) -> int:
    """Where a step is whose line has these words."""
    return [i for i, line in enumerate(lines) if words in line.get("text", "")][which]


def data_taken(lines: Lines) -> int:
    """Where the host takes the Data of the read."""
    return step(lines, "host takes from port 0 conn 1 fis 9")


class Edits(unittest.TestCase):
    def edited(self, edit: Callable[[Lines], None]) -> Optional[str]:
        lines = [dict(line) for line in OUTPUT]
        edit(lines)
        return clause_of(lines)

    def replace(self, at: Callable[[Lines], int], old: str, new: str) -> Optional[str]:
        def edit(lines: Lines) -> None:
            line, key = lines[at(lines)], "printed" if "printed" in lines[at(lines)] else "text"
            self.assertIn(old, line[key])
            line[key] = line[key].replace(old, new, 1)
        return self.edited(edit)

    def test_the_true_output_violates_none(self) -> None:
        self.assertIsNone(clause_of(OUTPUT))

    def test_a_byte_changes_on_its_way_up(self) -> None:
        self.assertEqual(self.replace(lambda lines: printed(lines, "took 0 1 9"), "01080f", "01090f"), "prefix")

    def test_a_fis_is_left_out(self) -> None:
        def edit(lines: Lines) -> None:
            at = step(lines, "host takes from port 0 conn 1 fis 8")
            lines[at:at + 2] = [{"printed": "nothing"}]
        self.assertEqual(self.edited(edit), "prefix")

    def test_a_fis_is_another(self) -> None:
        def edit(lines: Lines) -> None:
            lines[step(lines, "host takes from port 0 conn 1 fis 8")]["frame"] = "activate"
        self.assertEqual(self.edited(edit), "prefix")

    def test_a_count_is_wrong(self) -> None:
        self.assertEqual(self.replace(lambda lines: printed(lines, "port 0 conn 1"), "taken 13", "taken 12"), "prefix")

    def test_a_fis_comes_up_after_the_removal(self) -> None:
        def edit(lines: Lines) -> None:
            record = lines.pop(step(lines, "pm records at port 0, conn 1 went"))
            lines.insert(step(lines, "pm port 0 -> host conn 1 fis 12"), record)
        self.assertEqual(self.edited(edit), "nothing_lost.over")

    def test_a_slot_is_completed_that_the_fis_does_not_name(self) -> None:
        def edit(lines: Lines) -> None:
            lines[step(lines, "host takes from port 0 conn 1 fis 7")]["done"] = [0]
        self.assertEqual(self.edited(edit), "delivers.reported")

    def test_a_slot_is_completed_twice(self) -> None:
        def edit(lines: Lines) -> None:
            lines[step(lines, "host takes from port 0 conn 1 fis 6")]["done"] = [0, 0]
        self.assertEqual(self.edited(edit), "delivers.once")

    def test_bytes_of_a_read_are_missing(self) -> None:
        self.assertEqual(self.replace(data_taken, "; bytes 0 to 512 of slot 0 ticket 2", ""), "delivers.placed")

    def test_more_bytes_are_filled_than_came(self) -> None:
        self.assertEqual(self.replace(data_taken, "bytes 0 to 512 of", "bytes 0 to 500 of"), "delivers.placed")

    def test_a_byte_stands_where_none_was_put(self) -> None:
        self.assertEqual(self.replace(lambda lines: printed(lines, "101000 "), "0000", "0001"), "delivers.client")

    def test_a_ticket_is_left_out(self) -> None:
        self.assertEqual(self.replace(lambda lines: step(lines, "ticket 2 takes a request"), "ticket 2", "ticket 3"), "tickets")

    def test_a_ticket_is_polled_twice(self) -> None:
        self.assertEqual(self.replace(lambda lines: printed(lines, "ticket 2"), "ticket 2", "ticket 1"), "tickets")

    def test_a_request_is_done_that_no_device_completed(self) -> None:
        self.assertEqual(self.replace(lambda lines: printed(lines, "ticket 3"), "removed", "done"), "truth.done")

    def test_a_read_brings_what_was_there_before_the_write(self) -> None:
        written, at_first = OUTPUT[printed(OUTPUT, "sent 0 1 9")]["printed"].split()[4][8:], opening(8).hex()

        def edit(lines: Lines) -> None:
            for line in lines:
                said = line.get("printed", "")
                if said.startswith(("sent", "took")):
                    line["printed"] = said.replace(written, at_first)
                elif said.startswith("101000 "):
                    at, data = said.split()
                    line["printed"] = f"{at} {data[:1024]}{at_first[:512]}{data[1536:2048]}{at_first[512:]}{data[2560:]}"
        self.assertEqual(self.edited(edit), "polled_is_honest")

    def test_the_output_ends_early(self) -> None:
        self.assertEqual(clause_of(OUTPUT[:-40]), "output")


class Media(unittest.TestCase):
    def test_what_a_read_may_bring(self) -> None:
        one, two = bytes([1] * 512), bytes([2] * 512)
        disk = Disk([Write(1, 8, 1, one, 10, 20), Write(2, 8, 1, two, 30)])
        self.assertEqual(disk.may_bring(8, 5, 9), {opening(8)})
        self.assertEqual(disk.may_bring(8, 15, 18), {opening(8), one})
        self.assertEqual(disk.may_bring(8, 25, 29), {one})
        self.assertEqual(disk.may_bring(8, 40, 50), {one, two})
        self.assertEqual(disk.may_bring(9, 40, 50), {opening(9)})
        disk.writes[1].ended = 35
        self.assertEqual(disk.may_bring(8, 40, 50), {two})
        disk.writes.append(Write(3, 8, 1, None, 36))
        self.assertIsNone(disk.may_bring(8, 40, 50))


class Making(unittest.TestCase):
    def test_a_seed_makes_one_scenario(self) -> None:
        self.assertEqual(Maker(7, 50).make(), Maker(7, 50).make())
        self.assertNotEqual(Maker(7, 50).make(), Maker(8, 50).make())

    def test_honest_and_lying_devices_come_up(self) -> None:
        lines = [line for seed in range(40) for line in Maker(seed, 50).make()]
        for word in ("disk", "script", "inject", "gone", "read", "write", "flush", "put", "commandbased"):
            self.assertTrue(any(word in line.split() for line in lines), word)


@needs_program
class Played(unittest.TestCase):
    def setUp(self) -> None:
        path = built_program()
        assert path is not None
        self.path = path

    def test_sentences_hold_of_random_scenarios(self) -> None:
        for seed in range(1, 4):
            self.assertIsNone(verdict(Program(self.path), Maker(seed, 20).make()), seed)

    def test_a_program_that_lies_is_found_and_its_scenario_is_shrunk(self) -> None:
        with tempfile.TemporaryDirectory() as folder:
            liar = Path(folder) / "liar"
            liar.write_text(f"#!/bin/sh\n'{self.path}' \"$@\" | sed 's/\"printed\":\"\\(10....\\) ../\"printed\":\"\\1 ff/'\n")
            liar.chmod(liar.stat().st_mode | stat.S_IXUSR)
            with mock.patch.dict(os.environ, {"PM_TRACE": str(liar)}):
                said = call("fuzz", "--seed", 3, "--steps", 1)
        self.assertEqual(said.status, 1)
        self.assertIn("seed 3: delivers.client: byte 101000 is neither put nor filled so\n", said.out)
        self.assertEqual(said.out.splitlines()[-1].split()[0], "show")
        self.assertLess(len(said.out.splitlines()), 8)
