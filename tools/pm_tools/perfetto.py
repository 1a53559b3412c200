"""Turns a trace into the trace event format of Chrome, for ui.perfetto.dev:

    bin/pm_trace run --json examples/fifteen-disks.scenario | bin/pm_trace perfetto > fifteen.json

One step is one microsecond. There is a process for the units, one for the links and one for the slots. A slice on a link is a
FIS from the step that sends it to the step that takes it; arrows join the slices of one FIS. A slice of a slot is a request
from its submit to its poll, in it the time while it is issued. Faults, drops and removals are instants.
"""
from __future__ import annotations

import argparse
import json
from dataclasses import dataclass, field
from typing import Any, Optional, Sequence

from pm_tools.commands import add_trace, parser_of, reading
from pm_tools.ladder import Bar, Window, lane_of, ladder_of, unit_of
from pm_tools.names import note_of, short_name
from pm_tools.trace import NotATrace, Step, read_trace

UNITS, LINKS, SLOTS = 1, 2, 3
PROCESSES = {UNITS: "units", LINKS: "links", SLOTS: "slots"}

Event = dict[str, Any]


@dataclass
class Events:
    """The events so far, and the number of each track by its process and name."""

    made: list[Event] = field(default_factory=list)
    tracks: dict[tuple[int, str], int] = field(default_factory=dict)

    def track(self, process: int, name: str) -> int:
        if (process, name) not in self.tracks:
            self.tracks[process, name] = len(self.tracks) + 1
            self.made.append({"ph": "M", "name": "thread_name", "pid": process, "tid": self.tracks[process, name],
                              "args": {"name": name}})
        return self.tracks[process, name]

    def slice(self, process: int, track: str, name: str, begin: float, end: float, **more: Any) -> None:
        self.made.append({"ph": "X", "pid": process, "tid": self.track(process, track), "name": name, "ts": begin,
                          "dur": max(end - begin, 0.5), "args": more})

    def flow(self, phase: str, track: str, number: int, at: float) -> None:
        """A point of an arrow between slices: `s` begins it, `t` goes on, `f` ends it."""
        event = {"ph": phase, "cat": "fis", "name": "fis", "id": number, "pid": LINKS, "tid": self.track(LINKS, track), "ts": at}
        self.made.append({**event, "bp": "e"} if phase == "f" else event)

    def instant(self, step: Step) -> None:
        self.made.append({"ph": "i", "s": "g", "pid": UNITS, "tid": self.track(UNITS, "trouble"), "ts": step.number,
                          "name": note_of(step) or step.said(), "args": {"line": step.text}})


def link_name(step: Step) -> str:
    return f"{lane_of(step.source, step.port)} -> {lane_of(step.target, step.port)}"


class Hops:
    """The FISes on links, and the slices of each FIS."""

    def __init__(self, events: Events) -> None:
        self.events = events
        self.sent: dict[tuple[object, ...], Step] = {}
        self.slices: dict[tuple[object, ...], list[tuple[str, float]]] = {}

    def note(self, step: Step) -> None:
        key = (step.source, step.target, *step.fis_key)
        if step.is_whole:
            self.add(step, step.number, step.number + 1, step.text)
        elif step.act == "sends":
            self.sent[key] = step
        elif step.act == "takes":
            sender = self.sent.pop(key, None)
            self.add(step, sender.number if sender else step.number - 1, step.number, step.text)

    def add(self, step: Step, begin: int, end: int, line: str) -> None:
        name = short_name(step.frame) if step.frame else "FIS"
        self.events.slice(LINKS, link_name(step), name, begin, end, line=line, frame=step.frame)
        self.slices.setdefault(step.fis_key, []).append((link_name(step), begin + 0.1))

    def close(self, last: int) -> None:
        """What is on a link at the end, and the arrows."""
        for step in self.sent.values():
            self.add(step, step.number, last, f"{step.text} (not taken)")
        for number, slices in enumerate(self.slices.values(), 1):
            for place, (track, at) in enumerate(slices if len(slices) > 1 else []):
                self.events.flow("s" if place == 0 else "f" if place == len(slices) - 1 else "t", track, number, at)


def add_requests(events: Events, steps: list[Step]) -> None:
    """The bars of the ladder, its rows counted in steps."""
    ladder = ladder_of(steps, Window())
    asked = {ticket: note_of(step) for step in steps if step.submitted for _, ticket in step.requests()}
    ended = {ticket: step.ended for step in steps if step.ended for _, ticket in step.requests()}

    def at(place: float) -> float:
        row = min(max(int(place), 1), len(ladder.rows))
        return ladder.rows[row - 1].step

    def name(bar: Bar) -> str:
        if bar.is_issued:
            return "issued"
        return f"ticket {bar.ticket}: {ended.get(bar.ticket or 0, 'not polled')}"

    for bar in sorted(ladder.bars, key=lambda bar: (bar.begin, bar.is_issued)):
        events.slice(SLOTS, f"slot {bar.slot:02}", name(bar), at(bar.begin), at(bar.end), asked=asked.get(bar.ticket or 0))


def events_of(steps: list[Step]) -> list[Event]:
    events = Events([{"ph": "M", "name": "process_name", "pid": number, "args": {"name": name}}
                     for number, name in PROCESSES.items()])
    hops = Hops(events)
    for step in steps:
        if step.act in ("sends", "takes"):
            hops.note(step)
        else:
            events.slice(UNITS, unit_of(step), note_of(step), step.number, step.number + 1, line=step.text)
        if step.is_trouble:
            events.instant(step)
    hops.close(steps[-1].number if steps else 0)
    add_requests(events, steps)
    return events.made


def parser() -> argparse.ArgumentParser:
    words = parser_of("pm_trace perfetto", __doc__)
    add_trace(words)
    return words


def main(words: Optional[Sequence[str]] = None) -> int:
    given = parser().parse_args(words)
    with reading("pm_trace perfetto"):
        steps = read_trace(given.trace).steps
        if not steps:
            raise NotATrace("the trace has no step")
    events = ",\n".join(json.dumps(event) for event in events_of(steps))
    print(f'{{"displayTimeUnit": "ns", "traceEvents": [\n{events}\n]}}')
    return 0
