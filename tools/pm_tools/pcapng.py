"""Writes the FISes of a trace as packets, for Wireshark and tshark with tools/wireshark/gefsunk_fis.lua:

    bin/pm_trace run --json examples/one-read.scenario | bin/pm_trace pcapng > one-read.pcapng
    bin/pm_trace pcapng --play cases/guest/linux-boot.scenario > boot.pcapng
    tshark -X lua_script:tools/wireshark/gefsunk_fis.lua -r boot.pcapng

A packet is a FIS that is put on the host's link; with --links all, on any link, each device's link an interface of its
own. Its time is the number of its step, in microseconds, and its comment has the line of the trace. The trace tells a FIS
in words: its bytes are made of them, and what the words leave out is 0 (the bytes of Data, above all). The packet says so
(`fis.made`). A trace of `run --bytes` has the bytes. With --play the scenario is played in such a way that the bytes of all
FISes become known under `run`, and those of all but Data under `guest`.
"""
from __future__ import annotations

import argparse
import struct
import sys
from pathlib import Path
from typing import BinaryIO, Optional, Sequence

from pm_tools.commands import add_trace, parser_of, reading
from pm_tools.frames import bytes_of
from pm_tools.playing import played
from pm_tools.program import Program
from pm_tools.trace import Step, Trace, read_trace

LINKTYPE_USER0 = 147
SECTION, INTERFACE, PACKET = 0x0A0D0D0A, 1, 6
COMMENT, NAME, FLAGS = 1, 2, 2  # options; 2 is if_name of an interface, and epb_flags of a packet
INBOUND, OUTBOUND = 1, 2
UP, MADE, DROPPED, IGNORED = 1, 2, 4, 8
NONE = 0xFFFFFFFF


def padded(data: bytes) -> bytes:
    return data + bytes(-len(data) % 4)


def option(code: int, value: bytes) -> bytes:
    return struct.pack("<HH", code, len(value)) + padded(value)


def block(kind: int, body: bytes) -> bytes:
    length = len(body) + 12
    return struct.pack("<II", kind, length) + body + struct.pack("<I", length)


def section() -> bytes:
    return block(SECTION, struct.pack("<IHHq", 0x1A2B3C4D, 1, 0, -1))


def interface(name: str) -> bytes:
    return block(INTERFACE, struct.pack("<HHI", LINKTYPE_USER0, 0, 0) + option(NAME, name.encode()) + option(0, b""))


def packet(number: int, time: int, data: bytes, is_up: bool, comment: str) -> bytes:
    options = option(COMMENT, comment.encode()) + option(FLAGS, struct.pack("<I", INBOUND if is_up else OUTBOUND)) + option(0, b"")
    head = struct.pack("<IIIII", number, time >> 32, time & 0xFFFFFFFF, len(data), len(data))
    return block(PACKET, head + padded(data) + options)


def head_of(step: Step, is_known: bool, taken: Optional[Step]) -> bytes:
    """What stands before the FIS: version 1, flags, 1 for a device's link, port, connection, number of the FIS, step."""
    flags = UP if step.way == "up" else 0
    flags |= 0 if is_known else MADE
    flags |= DROPPED if taken and taken.dropped or step.is_whole and step.dropped else 0
    flags |= IGNORED if taken and taken.ignored or step.ignored else 0
    is_of_device = "disk" in (step.source, step.target)
    return struct.pack(">BBBBIII", 1, flags, is_of_device, step.port or 0, NONE if step.conn is None else step.conn,
                       NONE if step.fis is None else step.fis, step.number)


def link_of(step: Step) -> str:
    return f"device {step.port}" if "disk" in (step.source, step.target) else "host"


def takers(steps: list[Step]) -> dict[tuple[object, ...], Step]:
    """The step that takes each FIS off each link."""
    return {(step.source, step.target, *step.fis_key): step for step in steps if step.act == "takes"}


def write_packets(trace: Trace, is_all: bool, out: BinaryIO) -> int:
    """Writes the file; it gives the number of packets."""
    steps = [step for step in trace.steps if step.act == "sends" and (is_all or link_of(step) == "host")]
    names = {name: number for number, name in enumerate(dict.fromkeys(["host", *map(link_of, steps)]))}
    taken, count = takers(trace.steps), 0
    out.write(section() + b"".join(map(interface, names)))
    for step in steps:
        known = bytes_of(step)
        if known is None:
            continue
        taker = taken.get((step.source, step.target, *step.fis_key))
        comment = step.text if taker is None else f"{step.text}\n{taker.text}"
        data = head_of(step, known[1], taker) + known[0]
        out.write(packet(names[link_of(step)], step.number, data, step.way == "up", comment))
        count += 1
    return count


def parser() -> argparse.ArgumentParser:
    words = parser_of("pm_trace pcapng", __doc__)
    words.add_argument("--links", choices=("host", "all"), default="host", help="which links (host)")
    input_words = words.add_mutually_exclusive_group()
    input_words.add_argument("--play", type=Path, metavar="SCENARIO", help="play this scenario, in place of a trace")
    add_trace(input_words)
    return words


def main(words: Optional[Sequence[str]] = None) -> int:
    given = parser().parse_args(words)
    with reading("pm_trace pcapng"):
        trace = played(Program.found(), given.play.read_text(encoding="utf-8")) if given.play else read_trace(given.trace)
        write_packets(trace, given.links == "all", sys.stdout.buffer)
    return 0
