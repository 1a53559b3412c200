"""Plays a scenario of `guest` so that the bytes of its FISes become known: commands are read where the guest puts them, and what
devices send where the controller writes it (AHCI 1.3.1, 4.2: the command list, the command tables and the received FISes)."""
from __future__ import annotations

import re
from dataclasses import dataclass, field, replace
from typing import Iterator, Optional, Sequence

from pm_tools.frames import COMMANDS, made
from pm_tools.program import Program
from pm_tools.trace import CONTROL_PORT, Step, Trace, link_step

PXCLB, PXCLBU, PXFB, PXFBU, PXCI, PXFBS = 0x100, 0x104, 0x108, 0x10C, 0x138, 0x140
NAMED = {"PxCLB": PXCLB, "PxCLBU": PXCLBU, "PxFB": PXFB, "PxFBU": PXFBU, "PxCI": PXCI, "PxFBS": PXFBS}
OTHER = 0xFFFF  # stands for all registers that say nothing of where bytes are
ROW = 256  # bytes of the received FISes of a device
PLACES = {"setup": (0x00, 28), "pio": (0x20, 20), "d2h": (0x40, 20), "bits": (0x58, 8)}
COMMAND_BYTES = 20
# What is printed before what a line prints of its own.
REASON = re.compile(r"ports \d+ memory|driver |controller |multiplier |interrupt |ignored: |warning: |open: |waits |"
                    r"slot \d+ (not taken|fails|issued)|disk \d+(: unheard:| asks:) ")


def offset_of(word: str) -> int:
    """The offset of a register, by its name or in hexadecimal."""
    try:
        return NAMED[word] if word in NAMED else int(word, 16)
    except ValueError:
        return OTHER


@dataclass
class Guest:
    """The guest's memory as its own lines fill it, and the registers that say where things are."""

    start: int = 0
    memory: bytearray = field(default_factory=lambda: bytearray(1 << 20))
    registers: dict[int, int] = field(default_factory=dict)
    issued: list[bytes] = field(default_factory=list)

    def read(self, at: int, count: int) -> Optional[bytes]:
        begin = at - self.start
        return bytes(self.memory[begin:begin + count]) if 0 <= begin <= len(self.memory) - count else None

    def address(self, low: int, high: int) -> int:
        return self.registers.get(high, 0) << 32 | self.registers.get(low, 0)

    def note(self, line: str) -> None:
        """What a line of the scenario changes."""
        words = line.split()
        if words[0] == "memory":
            self.start, self.memory = int(words[1], 16), bytearray(int(words[2]))
        elif words[0] == "guest":
            data, begin = bytes.fromhex("".join(words[2:])), int(words[1], 16) - self.start
            self.memory[begin:begin + len(data)] = data
        elif words[:2] == ["mmio", "write"]:
            self.write(offset_of(words[2]), int(words[3], 16))

    def write(self, register: int, value: int) -> None:
        self.registers[register] = value
        if register == PXCI:
            self.issued += [fis for slot in range(32) if value >> slot & 1 and (fis := self.command(slot))]

    def command(self, slot: int) -> Optional[bytes]:
        header = self.read(self.address(PXCLB, PXCLBU) + 32 * slot, 16)
        return self.read(int.from_bytes(header[8:16], "little"), COMMAND_BYTES) if header else None

    def row(self, port: int) -> int:
        """Where the received FISes of a device are."""
        row = port if self.registers.get(PXFBS, 0) & 1 else 0
        return self.address(PXFB, PXFBU) + ROW * row

    def take_command(self, port: int, frame: str) -> Optional[bytes]:
        """The command that goes down to a port in these words, which is issued once."""
        words = frame.split()
        wanted = COMMANDS.get(words[1], int(words[2], 16) if words[1] == "command" else None)
        for place, fis in enumerate(self.issued):
            is_control = words[1] == "control" and not fis[1] & 0x80
            if fis[1] & 0x0F == port and (is_control or wanted is None or fis[2] == wanted):
                return self.issued.pop(place)
        return None


def link_lines(printed: Sequence[str]) -> Iterator[list[Step]]:
    """What went over the link in each `settle`."""
    steps: list[Step] = []
    for line in printed:
        step = link_step(0, line)
        if step:
            steps.append(step)
        elif line in ("settled", "unsettled"):
            yield steps
            steps = []


@dataclass(frozen=True)
class Shown:
    """A line that is played, and of which port it shows the received FISes."""

    line: str
    port: Optional[int] = None


def lines_to_play(lines: Sequence[str], moved: Iterator[list[Step]]) -> Iterator[Shown]:
    """The scenario FIS by FIS, by `settle 1` in the place of each `settle` in which something moves, each with what was received
    after it. The last `settle` moves what these did not."""
    guest = Guest()
    for line in lines:
        guest.note(line)
        if line.split()[0] == "settle":
            steps: list[Step] = next(moved, [])
            ports = sorted({step.port for step in steps if step.way == "up" and step.port is not None})
            rows = [Shown(f"show {guest.row(port):x} {ROW}", port) for port in ports if guest.read(guest.row(port), ROW)]
            for _ in steps:
                yield from (Shown("settle 1"), *rows)
        yield Shown(line)


def received(step: Step, rows: dict[int, bytes]) -> Optional[bytes]:
    """The bytes of a FIS of a device, if what was received after it is that FIS."""
    kind = (step.frame or "").split()[0]
    if kind not in PLACES or step.port not in rows:
        return None
    begin, count = PLACES[kind]
    raw, port = rows[step.port or 0][begin:begin + count], CONTROL_PORT if step.port is None else step.port
    like = made(step.frame or "", port, ())
    return raw if raw[:1] == like[:1] and raw[1] & 0x0F == port and (kind == "setup" or raw[2:4] == like[2:4]) else None


class Recorder:
    """Puts the steps of the output together with bytes."""

    def __init__(self) -> None:
        self.guest = Guest()
        self.lines: list[Step | str] = []
        self.waiting: list[int] = []  # where the steps are that wait for what was received

    def add(self, line: str) -> None:
        number = sum(isinstance(one, Step) for one in self.lines) + 1
        step = link_step(number, line)
        if step is None:
            self.lines.append(line)
        elif step.way == "down" and (step.frame or "").startswith("h2d"):
            raw = self.guest.take_command(CONTROL_PORT if step.port is None else step.port, step.frame or "")
            self.lines.append(replace(step, raw=raw))
        else:
            self.waiting.append(len(self.lines))
            self.lines.append(step)

    def give(self, rows: dict[int, bytes]) -> None:
        for place in self.waiting:
            step = self.lines[place]
            if isinstance(step, Step):
                self.lines[place] = replace(step, raw=received(step, rows))
        self.waiting = []


def recorded(lines: Sequence[Shown], printed: Sequence[str]) -> Trace:
    """The trace: each line that was played prints one, after what goes over the link in it."""
    recorder, output, rows = Recorder(), iter(printed), dict[int, bytes]()
    for shown in lines:
        if shown.port is None:
            recorder.give(rows)
            rows = {}
        recorder.guest.note(shown.line)
        if shown.line.split()[0] in ("ports", "memory", "disk"):
            continue
        for line in output:
            if REASON.match(line):
                recorder.lines.append(line)
            elif link_step(0, line):
                recorder.add(line)
            else:
                if shown.port is not None:
                    rows[shown.port] = bytes.fromhex(line.split()[1])
                elif shown.line != "settle 1":
                    recorder.lines.append(line)
                break
    recorder.give(rows)
    return Trace(tuple(recorder.lines), is_of_link=True)


def play_guest(program: Program, lines: Sequence[str]) -> Trace:
    """The trace of `guest`, with bytes."""
    def play(played: Sequence[str]) -> list[str]:
        return program.lines(["guest", "--trace"], "".join(line + "\n" for line in played))

    shown = list(lines_to_play(lines, link_lines(play(lines))))
    return recorded(shown, play([one.line for one in shown]))
