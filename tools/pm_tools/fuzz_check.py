"""Checks the sentences of docs/THEOREM.md on what `pm_trace run --json` printed of a scenario, from that output and the
scenario alone: nothing here is asked of the program."""
from __future__ import annotations

import re
from dataclasses import dataclass, field
from typing import Iterator, Optional, Sequence

from pm_tools.media import Disk, Write, opening
from pm_tools.trace import CONTROL_PORT, Step, Trace

CLIENT, DRIVERS_BYTES, OWN_SLOTS = 0x100000, 0x200, 30
QUIET = ("ports", "disk", "script")


class Violated(Exception):
    """A sentence does not hold: which one, by its clause, and where."""

    def __init__(self, clause: str, why: str) -> None:
        super().__init__(f"{clause}: {why}")
        self.clause = clause


def demand(holds: bool, clause: str, why: str) -> None:
    if not holds:
        raise Violated(clause, why)


@dataclass
class Request:
    """A request that the driver took."""

    ticket: int
    slot: int
    work: str
    port: int
    lba: int
    places: list[tuple[int, int]]
    submitted: int
    content: Optional[bytes]  # of a write, at its submit; None where it is not known
    is_issued: bool = False
    completed: Optional[int] = None
    is_trusted: bool = False
    brought: Optional[bytes] = None  # of a read, when it was completed
    filled: set[int] = field(default_factory=set)

    @property
    def length(self) -> int:
        return sum(length for _, length in self.places)

    def addresses(self) -> list[int]:
        return [at + i for at, length in self.places for i in range(length)]


class Memory:
    """Client memory, as puts and Data make it; what no output tells is not known."""

    def __init__(self, mib: int) -> None:
        self.bytes = bytearray(mib * 1024 * 1024)
        self.unknown: set[int] = set()

    def put(self, at: int, data: bytes) -> None:
        self.bytes[at - CLIENT:at - CLIENT + len(data)] = data
        self.unknown.difference_update(range(at, at + len(data)))

    def read(self, places: list[int]) -> Optional[bytes]:
        if self.unknown and not self.unknown.isdisjoint(places):
            return None
        return bytes(self.bytes[at - CLIENT] for at in places)

    def difference(self, at: int, data: bytes) -> Optional[int]:
        """The first address from here on where these bytes are not what is known."""
        for place, value in enumerate(data, at):
            if place >= CLIENT + DRIVERS_BYTES and place not in self.unknown and self.bytes[place - CLIENT] != value:
                return place
        return None


@dataclass
class Connection:
    """What one device sent on one plugging, and what the host took of it."""

    sent: list[tuple[Optional[int], str]] = field(default_factory=list)
    taken: int = 0
    on_link: set[Optional[int]] = field(default_factory=set)
    at_removal: Optional[set[Optional[int]]] = None
    is_left_alone: bool = True


class Checker:
    """Goes through the output, line by line of the scenario."""

    def __init__(self, lines: Sequence[str]) -> None:
        self.lines = [line.split() for line in lines]
        sizes = next((words for words in self.lines if words[0] == "ports"), ["ports", "1", "capacity", "4", "memory", "2"])
        self.is_switching = "commandbased" not in sizes
        self.memory = Memory(int(sizes[5]) - 1 if len(sizes) > 5 else 1)
        self.disks = {port: Disk() for port in range(int(sizes[1]))}
        for words in self.lines:
            if words[0] == "script":
                self.disks.pop(int(words[1]), None)
        self.connections: dict[tuple[int, int], Connection] = {}
        self.latest: dict[int, int] = {}
        self.requests: dict[int, Request] = {}
        self.slots: dict[int, Request] = {}
        self.polled: set[int] = set()
        self.now = 0
        self.raw: dict[tuple[int, int, int], bytes] = {}

    def check(self, trace: Trace) -> None:
        """Raises Violated where a sentence does not hold."""
        acting = [words for words in self.lines if words[0] not in QUIET]
        output = iter(trace.lines)
        demand(isinstance(next(output, None), str), "output", "no line with the sizes of the world")
        for words in acting:
            if words[0] == "counts":
                self.counts([line for line in output if isinstance(line, str)])
                return
            steps, printed = self.part(output)
            self.act(words, steps, printed)

    @staticmethod
    def part(output: Iterator[Step | str]) -> tuple[list[Step], str]:
        """What one line did, and what it printed."""
        steps: list[Step] = []
        for line in output:
            if isinstance(line, str):
                return steps, line
            steps.append(line)
        raise Violated("output", "it ends too early")

    def act(self, words: list[str], steps: list[Step], printed: str) -> None:
        said = printed.split()
        if said[0] == "sent" and words[0] == "inject":
            self.connection(int(said[1]), int(said[2])).is_left_alone = False
        if said[0] in ("sent", "took"):
            self.bytes_seen(said)
        for step in steps:
            self.now = step.number
            self.step(step, words, said)
        if words[0] == "put" and printed == "put":
            self.memory.put(int(words[1], 16), bytes.fromhex("".join(words[2:])))
        elif words[0] == "show":
            place = self.memory.difference(int(said[0], 16), bytes.fromhex(said[1]))
            demand(place is None, "delivers.client", f"byte {place or 0:x} is neither put nor filled so")
        elif words[0] == "poll" and said[0] == "ticket":
            self.poll(int(said[1]), int(said[3]), " ".join(said[4:]))

    def connection(self, port: int, conn: int) -> Connection:
        return self.connections.setdefault((port, conn), Connection())

    def bytes_seen(self, said: list[str]) -> None:
        """A FIS in bytes: as it is sent, and as it is taken, with the number of its port."""
        key, data = (int(said[1]), int(said[2]), int(said[3])), bytes.fromhex(said[4])
        if said[0] == "sent":
            self.raw[key] = data
            return
        sent = self.raw.setdefault(key, data)
        marked = sent[:1] + bytes([sent[1] & 0xF0 | key[0]]) + sent[2:]
        demand(data == marked, "prefix", f"FIS {key[2]} of port {key[0]} conn {key[1]} came up otherwise than it was sent")

    def step(self, step: Step, words: list[str], said: list[str]) -> None:
        if step.act == "sends" and step.source == "disk":
            self.connection(step.port or 0, step.conn or 0).sent.append((step.fis, step.frame or ""))
        elif step.act == "sends" and step.source == "pm" and step.target == "host" and step.port != CONTROL_PORT:
            self.connection(step.port or 0, step.conn or 0).on_link.add(step.fis)
        elif step.act == "records" and step.gone:
            connection = self.connection(step.port or 0, step.conn or 0)
            connection.at_removal = set(connection.on_link)
        elif step.act == "takes" and step.target == "host":
            self.host_takes(step)
        elif step.submitted:
            self.submit(step, words)
        elif step.is_issue:
            self.issue(step)

    def host_takes(self, step: Step) -> None:
        port, conn = step.port or 0, step.conn or 0
        if port != CONTROL_PORT:
            self.next_of(self.connection(port, conn), step)
            demand(conn >= self.latest.get(port, 0), "on_the_way", f"step {step.number} takes of a connection that was over")
            self.latest[port] = conn
        self.fill(step)
        for slot in (slot for slot in step.done if slot < OWN_SLOTS):
            self.complete(step, slot)

    def next_of(self, connection: Connection, step: Step) -> None:
        """What the host takes of a connection is the next that was sent on it, and no more once that is over."""
        demand(connection.taken < len(connection.sent), "prefix", f"step {step.number} takes what was not sent")
        fis, frame = connection.sent[connection.taken]
        demand(fis == step.fis and frame == step.frame, "prefix",
               f"step {step.number} takes FIS {step.fis}, {step.frame}; sent was FIS {fis}, {frame}")
        demand(connection.at_removal is None or step.fis in connection.at_removal, "nothing_lost.over",
               f"step {step.number} takes what was not on the host's link when the removal was recorded")
        connection.taken += 1
        connection.on_link.discard(step.fis)

    def fill(self, step: Step) -> None:
        """Data that went to memory."""
        found = re.search(r"; bytes (\d+) to (\d+) of slot (\d+)", step.text)
        if not found or int(found[3]) >= OWN_SLOTS:
            return
        begin, end, slot = (int(number) for number in found.groups())
        request = self.slots.get(slot)
        demand(request is not None and request.is_issued and request.port == step.port, "delivers.placed",
               f"step {step.number} fills bytes of a slot that is not its device's")
        assert request is not None
        demand(end <= request.length and request.filled.isdisjoint(range(begin, end)), "delivers.placed",
               f"step {step.number} fills bytes {begin} to {end}, which are there or are none of the request")
        request.filled.update(range(begin, end))
        self.store(step, request.addresses()[begin:end])

    def store(self, step: Step, places: list[int]) -> None:
        raw = self.raw.get((step.port or 0, step.conn or 0, step.fis or 0))
        if raw is None:
            self.memory.unknown.update(places)
            return
        demand(len(raw) - 4 == len(places), "delivers.placed", f"step {step.number} fills other bytes than came")
        for place, value in zip(places, raw[4:]):
            self.memory.put(place, bytes([value]))

    def complete(self, step: Step, slot: int) -> None:
        """A slot that the report of a FIS has."""
        request = self.slots.get(slot)
        demand(request is not None and request.is_issued and request.completed is None, "delivers.once",
               f"step {step.number} completes slot {slot}, in which no command is issued")
        assert request is not None
        demand(request.port == step.port, "delivers.reported",
               f"step {step.number} of port {step.port} completes a command of port {request.port}")
        named = re.match(r"bits .*\bsactive ([0-9a-f]{8})", step.frame or "")
        is_named = named is not None and int(named[1], 16) >> slot & 1 == 1
        demand(is_named or request.work == "flush", "delivers.reported", f"step {step.number} does not name slot {slot}")
        demand(request.work != "read" or len(request.filled) == request.length, "delivers.placed",
               f"step {step.number} completes a read of which bytes are missing")
        request.completed = step.number
        request.is_trusted = request.port in self.disks and self.connection(request.port, step.conn or 0).is_left_alone
        request.brought = self.memory.read(request.addresses()) if request.work == "read" else None

    def submit(self, step: Step, words: list[str]) -> None:
        [(slot, ticket)] = list(step.requests())
        demand(ticket == len(self.requests) + 1, "tickets", f"ticket {ticket} is given after {len(self.requests)}")
        demand(slot not in self.slots, "tickets", f"ticket {ticket} stands in slot {slot}, which is taken")
        places = [(int(at, 16), int(length)) for at, length in (word.split(":") for word in words[4:])]
        lba = int(words[2]) if len(words) > 2 else 0
        request = Request(ticket, slot, words[0], int(words[1]), lba, places, step.number, None)
        if request.work == "write":
            request.content = self.memory.read(request.addresses())
            if request.port in self.disks:
                self.disks[request.port].writes.append(Write(ticket, lba, request.length // 512, request.content, step.number))
        self.requests[ticket] = self.slots[slot] = request

    def issue(self, step: Step) -> None:
        for slot, ticket in step.requests():
            request = self.slots.get(slot)
            if request is not None and request.ticket == ticket:
                demand(not request.is_issued, "tickets", f"step {step.number} issues ticket {ticket} a second time")
                request.is_issued = True

    def poll(self, ticket: int, slot: int, result: str) -> None:
        request = self.requests.get(ticket)
        demand(request is not None and ticket not in self.polled, "tickets", f"ticket {ticket} is polled, and does not stand")
        assert request is not None
        demand(request.slot == slot, "tickets", f"ticket {ticket} is polled with slot {slot}, and stands in {request.slot}")
        self.polled.add(ticket)
        self.slots.pop(slot, None)
        if result != "done":
            return
        demand(request.completed is not None, "truth.done", f"ticket {ticket} is done, and its device completed nothing")
        if self.is_switching and request.is_trusted:
            self.honest(request)

    def honest(self, request: Request) -> None:
        """A request that is done of a disk that was left alone."""
        disk = self.disks[request.port]
        if request.work == "write":
            for write in disk.writes:
                if write.ticket == request.ticket:
                    write.ended = request.completed
        elif request.work == "read" and request.brought is not None:
            for sector in range(request.length // 512):
                found = request.brought[512 * sector:512 * sector + 512]
                may_be = disk.may_bring(request.lba + sector, request.submitted, request.completed or self.now)
                demand(may_be is None or found in may_be, "polled_is_honest",
                       f"ticket {request.ticket} brought neither the opening bytes of sector {request.lba + sector} nor a write's")

    def counts(self, printed: list[str]) -> None:
        for line in printed:
            words = line.split()
            connection = self.connection(int(words[1]), int(words[3]))
            demand((len(connection.sent), connection.taken) == (int(words[5]), int(words[7])), "prefix",
                   f"`{line}`, and the trace has {len(connection.sent)} and {connection.taken}")


__all__ = ["Checker", "Violated", "opening"]
