"""Compares two traces by what happened in them, and not by the numbers of steps:

    bin/pm_trace run --trace before.scenario > before && bin/pm_trace run --trace after.scenario > after
    bin/pm_trace diff before after

A and B are traces of `run` or `guest`, each of `--json` or `--trace`. The steps of each port are compared by themselves, so
that it does not count which device was served first; with --order it counts. Numbers of steps, FISes, slots and tickets
do not count, since one request more shifts all that come after it; with --exact they do, but for those of steps. Where one
trace is of `guest`, only what went over the host's link is compared; all is where both are of `guest --json`.

Lines with - stand in A alone, lines with + in B alone. The status is 0 if nothing differs, 1 if something does or an input is
no trace.
"""
from __future__ import annotations

import argparse
import difflib
import re
from pathlib import Path
from typing import Iterator, Optional, Sequence

from pm_tools.commands import parser_of, reading
from pm_tools.trace import CONTROL_PORT, Step, Trace, read_trace

AROUND = 2  # how many lines that are alike stand round a difference
DIFFERENT = 1
LOOSE = ((r"(, |of |done )?\bslot \d+( ticket \d+)?", r"\1"), (r" fis \d+", ""), (r"\btag \d+", "tag"), (r" at #\d+", ""))


def loose(text: str) -> str:
    """A line without what another request before it would shift."""
    for pattern, put in LOOSE:
        text = re.sub(pattern, put, text)
    text = re.sub(r"sactive ([0-9a-f]{8})", lambda found: f"sactive of {bin(int(found[1], 16)).count('1')}", text)
    return re.sub(r"\b(is|fbs) [0-9a-f]{8} -> [0-9a-f]{8}", r"\1", text)


def is_on_link(step: Step) -> bool:
    """Whether a FIS is put on the host's link, or, from `guest`, goes over it."""
    return step.act == "sends" and {step.source, step.target} == {"host", "pm"}


def meaning(step: Step, is_exact: bool, is_of_link: bool) -> str:
    """By what a step is compared."""
    text = f"{step.way} {step.port}: {step.frame}" if is_of_link else step.said()
    return text if is_exact else loose(text)


def title_of(port: Optional[int]) -> str:
    return "driver" if port is None else "control port" if port == CONTROL_PORT else f"port {port}"


def parts_of(steps: list[Step], is_ordered: bool) -> dict[str, list[Step]]:
    """The steps that are compared with each other: all, or those of each port."""
    parts: dict[str, list[Step]] = {}
    for step in sorted(steps, key=lambda step: -1 if step.port is None else step.port):
        parts.setdefault("all ports" if is_ordered else title_of(step.port), []).append(step)
    if is_ordered:
        return {title: sorted(part, key=lambda step: step.number) for title, part in parts.items()}
    return parts


def alike(steps: list[Step], is_first: bool, is_last: bool) -> Iterator[str]:
    """Steps in which both agree: those beside a difference, and how many others."""
    before, after = (0 if is_first else AROUND), (0 if is_last else AROUND)
    left_out = len(steps) - before - after
    if left_out <= 1:
        yield from (f"  {step.text}" for step in steps)
        return
    yield from (f"  {step.text}" for step in steps[:before])
    yield f"  .. {left_out} alike"
    yield from (f"  {step.text}" for step in steps[len(steps) - after:])


def compare(one: list[Step], other: list[Step], is_exact: bool, is_of_link: bool) -> list[str]:
    """The lines that tell a difference; none where there is none."""
    keys = [[meaning(step, is_exact, is_of_link) for step in steps] for steps in (one, other)]
    if keys[0] == keys[1]:
        return []
    said: list[str] = []
    blocks = difflib.SequenceMatcher(None, keys[0], keys[1], autojunk=False).get_opcodes()
    for place, (tag, i, j, k, m) in enumerate(blocks):
        if tag == "equal":
            said += alike(one[i:j], place == 0, place == len(blocks) - 1)
        else:
            said += [f"- {step.text}" for step in one[i:j]] + [f"+ {step.text}" for step in other[k:m]]
    return said


def differences(one: Trace, other: Trace, is_ordered: bool, is_exact: bool) -> Iterator[tuple[str, int, list[str]]]:
    """Each part: its title, how many steps of A are in it, and the lines that tell a difference."""
    is_of_link = one.is_of_link or other.is_of_link or one.is_of_guest != other.is_of_guest
    both = [[step for step in trace.steps if is_on_link(step) or not is_of_link] for trace in (one, other)]
    parts = [parts_of(steps, is_ordered) for steps in both]
    for title in dict.fromkeys([*parts[0], *parts[1]]):
        of_one, of_other = (part.get(title, []) for part in parts)
        yield title, len(of_one), compare(of_one, of_other, is_exact, is_of_link)


def parser() -> argparse.ArgumentParser:
    words = parser_of("pm_trace diff", __doc__)
    words.add_argument("--order", action="store_true", help="compare all ports as one sequence")
    words.add_argument("--exact", action="store_true", help="numbers of FISes, slots, tags and tickets count, too")
    words.add_argument("one", type=Path, metavar="A")
    words.add_argument("other", type=Path, metavar="B")
    return words


def main(words: Optional[Sequence[str]] = None) -> int:
    given = parser().parse_args(words)
    with reading("pm_trace diff"):
        one, other = read_trace(given.one), read_trace(given.other)
    status = 0
    for title, count, said in differences(one, other, given.order, given.exact):
        print(f"{title}: {'differs' if said else f'{count} steps alike'}")
        for line in said:
            print(line)
        status = DIFFERENT if said else status
    return status
