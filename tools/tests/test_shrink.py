"""Scenarios that are shrunk."""
import tempfile
import unittest
from pathlib import Path
from unittest import mock

from pm_tools.shrink import shrunk, words_of
from support import TOP, built_program, call, needs_program


class Shrinking(unittest.TestCase):
    def test_only_the_lines_that_count_are_left(self) -> None:
        lines = [f"line {i}" for i in range(40)]
        self.assertEqual(shrunk(lines, lambda less: {"line 7", "line 31"} <= set(less)), ["line 7", "line 31"])

    def test_numbers_get_small(self) -> None:
        def holds(lines: list[str]) -> bool:
            return len(lines) == 1 and lines[0].startswith("settle ") and int(lines[0].split()[1]) >= 10
        self.assertEqual(shrunk(["came 0", "settle 1000"][1:], holds), ["settle 15"])

    def test_a_block_that_need_not_be_one_is_opened(self) -> None:
        lines = ["repeat 5", "step tick", "poll", "end"]
        self.assertEqual(shrunk(lines, lambda less: "poll" in less and less.count("end") == sum(
            line.startswith("repeat") for line in less)), ["poll"])

    def test_the_words_are_those_of_the_first_comment(self) -> None:
        self.assertEqual(words_of(["# pm_trace guest --trace", "ports 1"]), ["guest", "--trace"])
        self.assertEqual(words_of(["ports 1"]), ["run", "--trace"])


@needs_program
class Played(unittest.TestCase):
    def setUp(self) -> None:
        path = mock.patch.dict("os.environ", {"PM_TRACE": str(built_program())})
        path.start()
        self.addCleanup(path.stop)

    def test_a_refused_line_is_found(self) -> None:
        with tempfile.TemporaryDirectory() as folder:
            path = Path(folder) / "long.scenario"
            path.write_text("ports 1 capacity 4 memory 2\nput 101000 01\nput 101001 02\nputt 101002 03\nput 101003 04\n")
            said = call("shrink", "--keep", "line \\d+: command", path)
        self.assertEqual((said.status, said.out), (0, "putt 0 0\n"))

    def test_a_pattern_that_is_not_there_is_told(self) -> None:
        said = call("shrink", "--keep", "fault wrong-way", "--words", "run --only faults", TOP / "cases/text/empty.scenario")
        self.assertEqual((said.status, said.out), (1, ""))
        self.assertEqual(call("shrink", "--keep", "(", TOP / "cases/text/empty.scenario").status, 2)
