"""Plays random scenarios of honest and lying devices, and checks the sentences of docs/THEOREM.md on what they print:

    bin/pm_trace fuzz --seed 7 --steps 40 --runs 20

Each seed makes one scenario: disks and scripts, reads, writes and flushes whose places overlap, FISes that are injected in a
device's place, removals, and steps in any order; in one of five with command-based switching, where the sentence of honest
disks is not checked. The same seed and number of steps make the same scenario. Where a sentence does not hold, the seed,
its clause and the shrunk scenario are printed, and the status is 1.
"""
from __future__ import annotations

import argparse
import sys
from typing import Optional, Sequence

from pm_tools.commands import parser_of
from pm_tools.fuzz_check import Checker, Violated
from pm_tools.fuzz_make import Maker
from pm_tools.playing import flat
from pm_tools.program import Program
from pm_tools.shrink import shrunk
from pm_tools.trace import NotATrace, read_json

FAILED = 1


def checked(program: Program, lines: Sequence[str]) -> Checker:
    """What is known of a scenario once it is played and checked. Raises Violated where a sentence does not hold."""
    ended = program.play(["run", "--json"], "".join(line + "\n" for line in lines))
    if ended.status is None:
        raise Violated("status", f"it does not end within {program.seconds} s")
    if ended.status != 0:
        raise Violated("status", f"it ends with {ended.status}: {ended.errors.strip()[:200]}")
    checker = Checker(list(flat(lines)))
    try:
        checker.check(read_json(ended.printed.splitlines()))
    except (NotATrace, ValueError, IndexError) as error:
        raise Violated("output", f"it cannot be read: {error}") from error
    return checker


def verdict(program: Program, lines: Sequence[str]) -> Optional[Violated]:
    """The sentence that the scenario violates, if it does."""
    try:
        checked(program, lines)
    except Violated as found:
        return found
    return None


def least(program: Program, lines: list[str], clause: str) -> list[str]:
    """The smallest scenario that was found which violates the same sentence."""
    def holds(less: list[str]) -> bool:
        other = verdict(program, less)
        return other is not None and other.clause == clause
    return shrunk(lines, holds)


def told(program: Program, seed: int, steps: int, is_shrunk: bool) -> bool:
    """Plays one seed, and says what came of it. It gives whether all sentences hold."""
    lines = Maker(seed, steps).make()
    try:
        requests = checked(program, lines).requests.values()
    except Violated as found:
        print(f"seed {seed}: {found}", flush=True)
        lines = least(program, lines, found.clause) if is_shrunk else lines
        print(f"# pm_trace run --trace\n# seed {seed} steps {steps}. {verdict(program, lines) or found}")
        print("\n".join(lines), flush=True)
        return False
    done = sum(request.completed is not None for request in requests)
    lies = sum(line.startswith("inject") for line in lines)
    print(f"seed {seed}: {len(requests)} requests, {done} done, {lies} lies, all sentences hold", flush=True)
    return True


def parser() -> argparse.ArgumentParser:
    words = parser_of("pm_trace fuzz", __doc__)
    words.add_argument("--seed", type=int, required=True, metavar="N", help="the first seed")
    words.add_argument("--steps", type=int, default=40, metavar="N", help="how many acts a scenario has (40)")
    words.add_argument("--runs", type=int, default=1, metavar="N", help="how many seeds, one after the other (1)")
    words.add_argument("--whole", action="store_true", help="print a scenario that fails as it is, and do not shrink it")
    return words


def main(words: Optional[Sequence[str]] = None) -> int:
    given = parser().parse_args(words)
    program = Program.found()
    held = [told(program, seed, given.steps, not given.whole) for seed in range(given.seed, given.seed + given.runs)]
    if given.runs > 1:
        print(f"{sum(held)} of {len(held)} seeds: all sentences hold")
    return 0 if all(held) else FAILED


if __name__ == "__main__":
    sys.exit(main())
