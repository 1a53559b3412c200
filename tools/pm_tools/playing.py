"""Plays scenarios in such a way that the bytes of their FISes become known.

Under `run`, the trace has them (`--bytes`). Under `guest` each `settle` goes FIS by FIS, after each of which the received
FISes in the guest's memory are shown; the commands are read where the guest put them.
"""
from __future__ import annotations

import re
from typing import Iterator, Sequence

from pm_tools.guest_bytes import play_guest
from pm_tools.program import NotPlayed, Program
from pm_tools.shrink import words_of
from pm_tools.trace import Trace, read_json

MOST_LINES = 400_000
STEPS_OF_PORT = ("pmpresence", "disktake", "disksend", "pmfromdevice", "pmdown")
STEPS = ("pmfromhost", "pmup", "hosttake", "tick", "hostpush")


def round_steps(ports: int) -> list[str]:
    """The lines of a round, as docs/SCENARIOS.md has them."""
    return [*(f"step {name} {port}" for port in range(ports) for name in STEPS_OF_PORT), *(f"step {name}" for name in STEPS)]


def without_comment(line: str) -> str:
    """A line without its comment, which begins with a # at its start or behind a blank."""
    return re.sub(r"(^|[ \t])#.*", "", line)


def flat(lines: Sequence[str]) -> Iterator[str]:
    """The lines without `repeat`, `expect` and comments."""
    block: list[str] | None = None
    times = 0
    for line in map(without_comment, lines):
        words = line.split()
        if not words or words[0] == "expect":
            continue
        if words[0] == "repeat" and len(words) == 2 and words[1].isdigit():
            block, times = [], int(words[1])
        elif words == ["end"] and block is not None:
            if times * len(block) > MOST_LINES:
                raise NotPlayed("a block is repeated too often")
            yield from block * times
            block = None
        else:
            (yield line) if block is None else block.append(line)


def played(program: Program, text: str) -> Trace:
    """The trace of a scenario, with the bytes of its FISes as far as they can be known."""
    lines = text.splitlines()
    mode = words_of(lines)[0]
    if mode == "run":
        return read_json(program.lines(["run", "--bytes"], text), "what it printed")
    if mode == "guest":
        try:
            return play_guest(program, list(flat(lines)))
        except ValueError as error:
            raise NotPlayed(str(error)) from error
    raise NotPlayed(f"a scenario of `{mode}` has no trace")
