"""A trace as a ladder: rows of steps, lanes of units, arrows of FISes, bars of requests. It says what stands where in rows
and lanes, and nothing of pixels, so that a picture and a page are drawn from the same."""
from __future__ import annotations

from dataclasses import dataclass, field
from typing import Iterable, Optional

from pm_tools.names import note_of, short_name
from pm_tools.trace import CONTROL_PORT, GUEST_ACTS, Step

TOP = 0.0  # the place of all that is before the window; rows count from 1


@dataclass(frozen=True)
class Window:
    """Which steps are drawn."""

    first: int = 0
    last: Optional[int] = None
    port: Optional[int] = None

    def is_before(self, step: Step) -> bool:
        return step.number < self.first

    def is_after(self, step: Step) -> bool:
        return self.last is not None and step.number > self.last

    def has(self, step: Step) -> bool:
        return not self.is_before(step) and not self.is_after(step)

    def concerns(self, step: Step) -> bool:
        return self.port is None or step.port in (None, CONTROL_PORT, self.port)


@dataclass(frozen=True)
class Row:
    """A step with a line of its own."""

    step: int
    note: str
    port: Optional[int]
    is_bad: bool


@dataclass(frozen=True)
class Arrow:
    """A FIS on a link, or what the driver issues. A place outside of the window is an edge of it."""

    source: str
    target: str
    begin: float
    end: float
    label: str
    port: Optional[int]
    steps: tuple[int, ...]
    is_dropped: bool = False
    is_cut: bool = False  # it was not taken in this window


@dataclass(frozen=True)
class Mark:
    """A sign on a lane: `driver`, `came`, `gone` or `fault`."""

    kind: str
    lane: str
    place: float
    port: Optional[int]
    step: int


@dataclass(frozen=True)
class Bar:
    """A request in the column of its slot: from its submit to its poll, or while it is issued."""

    slot: int
    ticket: Optional[int]
    port: Optional[int]
    begin: float
    end: float
    is_issued: bool


@dataclass
class Ladder:
    """What is drawn."""

    lanes: list[str]
    slots: list[int]
    rows: list[Row] = field(default_factory=list)
    arrows: list[Arrow] = field(default_factory=list)
    marks: list[Mark] = field(default_factory=list)
    bars: list[Bar] = field(default_factory=list)
    steps: list[Step] = field(default_factory=list)

    @property
    def bottom(self) -> float:
        """The place of all that is after the window."""
        return len(self.rows) + 1.0


def has_row(step: Step) -> bool:
    """Whether a step has a row of its own: a FIS that is only taken off its link has not."""
    return step.act != "takes" or step.is_trouble or bool(note_of(step)) and step.target != "pm"


def lane_of(end: str, port: Optional[int]) -> str:
    return f"disk {port}" if end == "disk" else end


def unit_of(step: Step) -> str:
    """The lane of a step that moves no FIS."""
    unit = {"drives": "driver", "records": "pm", **GUEST_ACTS}.get(step.act, "disk")
    return lane_of(unit, step.port)


def kind_of(step: Step) -> str:
    """The sign of a step that moves no FIS."""
    if step.gone:
        return "gone"
    if step.act in GUEST_ACTS:
        return "fault" if step.is_trouble else "driver"
    return "driver" if step.act == "drives" else "came"


@dataclass
class Open:
    """A bar that is not ended yet."""

    begin: float
    ticket: Optional[int]
    port: Optional[int]


class Bars:
    """The requests under way, by their slots."""

    def __init__(self, ladder: Ladder) -> None:
        self.ladder = ladder
        self.requests: dict[int, Open] = {}
        self.issues: dict[int, Open] = {}

    def note(self, step: Step, place: float) -> None:
        self.see(step, place)
        for slot in step.done:
            self.close(self.issues, slot, place, True)
        for slot, ticket in step.requests():
            if step.ended:
                self.close(self.issues, slot, place, True)
                self.close(self.requests, slot, place, False)
            elif step.is_issue:
                self.issues[slot] = Open(place, ticket, self.requests[slot].port)

    def see(self, step: Step, place: float) -> None:
        """A request that is named for the first time: one that was submitted before the trace begins is open from its top on."""
        for slot, ticket in step.requests():
            known = self.requests.get(slot)
            if known is None or known.ticket != ticket:
                begin = place if step.submitted else TOP
                self.requests[slot] = Open(begin, ticket, step.port)
                if not step.submitted and step.act != "drives" and not step.done:
                    self.issues[slot] = Open(begin, ticket, step.port)

    def close(self, opened: dict[int, Open], slot: int, place: float, is_issued: bool) -> None:
        bar = opened.pop(slot, None)
        if bar is not None and place > TOP:
            self.ladder.bars.append(Bar(slot, bar.ticket, bar.port, bar.begin, place, is_issued))

    def close_all(self) -> None:
        for opened, is_issued in ((self.requests, False), (self.issues, True)):
            for slot in list(opened):
                self.close(opened, slot, self.ladder.bottom, is_issued)


class Builder:
    """Makes a ladder of the steps, one after the other. Those outside of the window count for what reaches into it."""

    def __init__(self, steps: list[Step], window: Window) -> None:
        self.window = window
        self.steps = [step for step in steps if window.concerns(step)]
        shown = [step for step in self.steps if window.has(step)]
        ports = sorted({step.port for step in shown if step.port is not None and "disk" in (step.source, step.target)})
        self.ladder = Ladder(["driver", "host", "pm", *(f"disk {port}" for port in ports)], [], steps=shown)
        self.sent: dict[tuple[object, ...], tuple[Step, float]] = {}
        self.bars = Bars(self.ladder)

    def place(self, step: Step) -> float:
        """Where a step stands: in its row, below the last row, or at an edge."""
        if self.window.is_before(step):
            return TOP
        if self.window.is_after(step):
            return self.ladder.bottom
        return len(self.ladder.rows) + (0.0 if has_row(step) else 0.25)

    def build(self) -> Ladder:
        for step in self.steps:
            if self.window.has(step) and has_row(step):
                self.ladder.rows.append(Row(step.number, note_of(step), step.port, step.is_trouble))
            self.add(step, self.place(step))
        self.add_not_taken()
        self.bars.close_all()
        self.ladder.slots = sorted({bar.slot for bar in self.ladder.bars})
        return self.ladder

    def add(self, step: Step, place: float) -> None:
        if step.is_whole:
            if self.window.has(step):
                self.arrow(step, place, place + 0.25, (step.number,), is_cut=False)
        elif step.act == "sends":
            self.sent[self.link_of(step)] = (step, place)
        elif step.act == "takes":
            self.add_taken(step, place)
        elif self.window.has(step):
            self.add_mark(step, place)
        if step.fault and self.window.has(step):
            self.ladder.marks.append(Mark("fault", "host", place, step.port, step.number))
        if not self.window.is_after(step):
            self.bars.note(step, place)

    @staticmethod
    def link_of(step: Step) -> tuple[object, ...]:
        """What a FIS has where it is sent and where it is taken."""
        return (step.source, step.target, *step.fis_key)

    def add_taken(self, step: Step, place: float) -> None:
        sender, begin = self.sent.pop(self.link_of(step), (None, TOP))
        if self.window.has(step) or (self.window.is_after(step) and sender and self.window.has(sender)):
            steps = (sender.number, step.number) if sender else (step.number,)
            self.arrow(step, begin, place, steps, is_cut=not self.window.has(step))

    def add_not_taken(self) -> None:
        """What is on a link at the end."""
        for step, begin in self.sent.values():
            if self.window.has(step):
                self.arrow(step, begin, self.ladder.bottom, (step.number,), is_cut=True)

    def arrow(self, step: Step, begin: float, end: float, steps: tuple[int, ...], is_cut: bool) -> None:
        label = short_name(step.frame) if step.frame else ""
        self.ladder.arrows.append(Arrow(lane_of(step.source, step.port), lane_of(step.target, step.port), begin,
                                        max(begin, end), label, step.port, steps, bool(step.dropped) and not is_cut, is_cut))

    def add_mark(self, step: Step, place: float) -> None:
        self.ladder.marks.append(Mark(kind_of(step), unit_of(step), place, step.port, step.number))
        if step.is_issue:
            self.ladder.arrows.append(Arrow("driver", "host", place, place, "", step.port, (step.number,)))


def ladder_of(steps: Iterable[Step], window: Window) -> Ladder:
    return Builder(list(steps), window).build()
