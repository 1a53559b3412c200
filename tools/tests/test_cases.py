"""The cases of the tools, below tools/cases. NAME.case has first comments: the words of a tool, `# exit N` where the status is
not 0, and what the case shows. NAME.out is what it prints, and NAME.err, if there is one, what it says on standard error. It
is called at the top of the repository; {case} in its words is the file itself, so that it may be the tool's input."""
from __future__ import annotations

import contextlib
import os
import shlex
import unittest
from dataclasses import dataclass
from pathlib import Path
from unittest import mock

from support import TOP, built_program, call

CASES = sorted((TOP / "tools/cases").glob("*.case"))
PLAYING = ("shrink", "fuzz")


@dataclass(frozen=True)
class Case:
    """A tool, its words, and how it is to end."""

    path: Path
    words: list[str]
    status: int

    def beside(self, suffix: str) -> Path:
        return self.path.with_suffix(suffix)


def case_of(path: Path) -> Case:
    first, *others = path.read_text().splitlines()
    status = next((int(line.split()[2]) for line in others if line.startswith("# exit ")), 0)
    return Case(path, shlex.split(first[1:].replace("{case}", str(path.relative_to(TOP)))), status)


def make_golden() -> None:
    """Writes what each case prints now: tests/data/make calls it."""
    for case in map(case_of, CASES):
        with contextlib.chdir(TOP):
            said = call(*case.words)
        case.beside(".out").write_text(said.out)
        if case.status:
            case.beside(".err").write_text(said.err)


class Cases(unittest.TestCase):
    def test_each_case_prints_what_lies_beside_it(self) -> None:
        program = built_program()
        for case in map(case_of, CASES):
            if program is None and case.words[0] in PLAYING:
                continue
            with self.subTest(case.path.stem), contextlib.chdir(TOP), mock.patch.dict(os.environ, {"PM_TRACE": str(program)}):
                said = call(*case.words)
                self.assertEqual(said.status, case.status, said.err)
                self.assertEqual(said.out, case.beside(".out").read_text())
                if case.beside(".err").exists():
                    self.assertEqual(said.err, case.beside(".err").read_text())
