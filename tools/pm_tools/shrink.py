"""Makes a scenario as short as it can be while its output still has a pattern:

    bin/pm_trace shrink --keep 'fault task-file' examples/bad-sector.scenario > short.scenario

PATTERN is a regular expression of Python, and is looked for in standard output and standard error, in which ^ and $ are the
ends of a line. The scenario is played with the words of its first comment (`# pm_trace guest --trace`), or with those of
--words; without both, under `run --trace`. Lines are left out, in large pieces and then one by one, and numbers are made
smaller. Standard error says how many lines are left, and how many runs that took. The status is 1 where the whole
scenario's output has no such pattern.
"""
from __future__ import annotations

import argparse
import re
import sys
from pathlib import Path
from typing import Callable, Optional, Sequence

from pm_tools.commands import parser_of, reading
from pm_tools.program import Program

NUMBER = re.compile(r"(?<![\w:])\d+(?!\w)")
WORDS = re.compile(r"#\s*pm_trace\s+(.+)")
NOT_THERE = 1

Lines = list[str]
Test = Callable[[Lines], bool]


def units_of(lines: Lines) -> list[Lines]:
    """The lines, each block of `repeat` with its `end` as one unit."""
    units: list[Lines] = []
    is_in_block = False
    for line in lines:
        if is_in_block:
            units[-1].append(line)
        else:
            units.append([line])
        word = line.split()[0]
        is_in_block = word == "repeat" or is_in_block and word != "end"
    return units


def drop_tail(lines: Lines, holds: Test) -> Lines:
    """Leaves out the end, as far as halving finds it."""
    units = units_of(lines)
    least, most = 0, len(units)
    while most - least > 1:
        middle = (least + most) // 2
        if holds(sum(units[:middle], [])):
            most = middle
        else:
            least = middle
    return sum(units[:most], [])


def drop_pieces(units: list[Lines], holds: Test) -> Lines:
    """Leaves out pieces of half the size, then of a quarter, and so on, down to single units."""
    size = max(1, len(units) // 2)
    while True:
        at = 0
        while at < len(units):
            less = units[:at] + units[at + size:]
            if less and holds(sum(less, [])):
                units = less
            else:
                at += size
        if size == 1:
            return sum(units, [])
        size = max(1, size // 2)


def drop_blocks(lines: Lines, holds: Test) -> Lines:
    """Leaves out `repeat` and its `end`, and keeps what stands between them."""
    at = 0
    while at < len(lines):
        if lines[at].split()[:1] == ["repeat"] and "end" in lines[at:]:
            end = lines.index("end", at)
            less = lines[:at] + lines[at + 1:end] + lines[end + 1:]
            if holds(less):
                lines = less
                continue
        at += 1
    return lines


def smaller(number: int) -> list[int]:
    """What is tried in the place of a number, the smallest first."""
    return sorted({value for value in (0, 1, number // 2) if value < number})


def lower_numbers(lines: Lines, holds: Test) -> Lines:
    """Makes each number of each line as small as one of a few."""
    lines = list(lines)
    for at in range(len(lines)):
        for place in range(len(NUMBER.findall(lines[at]))):
            lower_number(lines, at, place, holds)
    return lines


def lower_number(lines: Lines, at: int, place: int, holds: Test) -> None:
    found = list(NUMBER.finditer(lines[at]))[place]
    for value in smaller(int(found[0])):
        less = lines[at][:found.start()] + str(value) + lines[at][found.end():]
        if holds([*lines[:at], less, *lines[at + 1:]]):
            lines[at] = less
            return


def shrunk(lines: Lines, holds: Test) -> Lines:
    """The least lines that were found for which this still holds. Leaving one out may make room to leave out others, so it begins
    anew until nothing changes."""
    lines = drop_tail(lines, holds)
    while True:
        less = drop_pieces(units_of(lines), holds)
        less = drop_pieces([[line] for line in drop_blocks(less, holds)], holds)
        less = lower_numbers(less, holds)
        if less == lines:
            return less
        lines = less


class Keeper:
    """Whether the output of a scenario has a pattern. It plays each scenario once."""

    def __init__(self, program: Program, words: Sequence[str], pattern: str) -> None:
        self.program, self.words, self.pattern = program, words, re.compile(pattern, re.MULTILINE)
        self.known: dict[str, bool] = {}

    def __call__(self, lines: Lines) -> bool:
        text = "".join(line + "\n" for line in lines)
        if text not in self.known:
            ended = self.program.play(self.words, text)
            self.known[text] = any(self.pattern.search(part) for part in (ended.printed, ended.errors))
        return self.known[text]


def head_of(lines: Lines) -> Lines:
    """The first comments that say how the scenario is played."""
    return [line for line in lines if re.match(r"#\s*(pm_trace\s|exit\s)", line)]


def words_of(lines: Lines) -> list[str]:
    """The words of the program that the first comments have."""
    for line in lines:
        found = WORDS.match(line)
        if found:
            return found[1].split()
    return ["run", "--trace"]


def parser() -> argparse.ArgumentParser:
    words = parser_of("pm_trace shrink", __doc__)
    words.add_argument("--keep", required=True, metavar="PATTERN", help="what the output has to have still")
    words.add_argument("--words", metavar="WORDS", help="the words of pm_trace, as one: 'run --only faults'")
    words.add_argument("scenario", type=Path, metavar="FILE")
    return words


def main(words: Optional[Sequence[str]] = None) -> int:
    given = parser().parse_args(words)
    with reading("pm_trace shrink"):
        all_lines = given.scenario.read_text(encoding="utf-8").splitlines()
    lines = [line.strip() for line in all_lines if line.strip() and not line.startswith("#")]
    try:
        keeper = Keeper(Program.found(), given.words.split() if given.words else words_of(all_lines), given.keep)
    except re.error as error:
        print(f"pm_trace shrink: --keep is no regular expression: {error}", file=sys.stderr)
        return 2
    if not keeper(lines):
        print("pm_trace shrink: the output of the whole scenario does not have it", file=sys.stderr)
        return NOT_THERE
    least = shrunk(lines, keeper)
    print("\n".join([*head_of(all_lines), *least]))
    print(f"{len(least)} of {len(lines)} lines are left, after {len(keeper.known)} runs", file=sys.stderr)
    return 0
