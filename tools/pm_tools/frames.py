"""Bytes of FISes, made from the words of the trace (docs/FORMATS.md has the fields). What the words leave out is 0."""
from __future__ import annotations

import struct
from typing import Optional

from pm_tools.names import plain_words
from pm_tools.trace import CONTROL_PORT, Step

COMMANDS = {"read-queued": 0x60, "write-queued": 0x61, "read-dma": 0x25, "write-dma": 0x35, "read-log": 0x2F,
            "read-pm": 0xE4, "write-pm": 0xE8, "flush": 0xEA, "identify": 0xEC}
LONGEST = 8196  # bytes of a frame


def hex_after(words: list[str], name: str) -> int:
    return int(words[words.index(name) + 1], 16) if name in words else 0


def number_after(words: list[str], name: str) -> int:
    return int(words[words.index(name) + 1]) if name in words else 0


def split48(value: int) -> tuple[bytes, bytes]:
    """The two places of an LBA: bits 23:0 and 47:24."""
    spelled = value.to_bytes(6, "little")
    return spelled[:3], spelled[3:]


def register_fis(words: list[str], port: int, slots: tuple[int, ...]) -> bytes:
    """Register Host to Device."""
    if words[1] == "control":
        return bytes([0x27, port, 0, 0, 0, 0, 0, 0xA0]) + bytes(7) + bytes([hex_after(words, "control")]) + bytes(4)
    command = COMMANDS.get(words[1], hex_after(words, "command"))
    lba, features, device, count = 0, 0, 0x40, 0
    if command in (0x60, 0x61):
        lba, features, count = number_after(words, "lba"), number_after(words, "sectors"), (slots[0] if slots else 0) << 3
    elif command in (0xE4, 0xE8):
        features = int(words[-1 if "value" not in words else -3].split("[")[1].rstrip("]"))
        device = number_after(words, "port") if "port" in words else CONTROL_PORT
        value = hex_after(words, "value")
        lba, count = value >> 8, value & 0xFF
    low, high = split48(lba)
    return (bytes([0x27, 0x80 | port, command, features & 0xFF]) + low + bytes([device]) + high
            + bytes([features >> 8 & 0xFF]) + struct.pack("<H", count) + bytes(6))


def answer_fis(words: list[str], port: int) -> bytes:
    """Register Device to Host."""
    lba, count = (1, 1) if "signature" in words else (0, 0)
    if "value" in words:
        value = hex_after(words, "value")
        lba, count = value >> 8, value & 0xFF
    low, high = split48(lba)
    return (bytes([0x34, port, hex_after(words, "status"), hex_after(words, "error")]) + low + b"\0" + high + b"\0"
            + struct.pack("<H", count) + bytes(6))


def setup_fis(words: list[str], port: int) -> bytes:
    """DMA Setup."""
    flags = (0x20 if "host" in words else 0) | (0x80 if "auto" in words else 0)
    return (bytes([0x41, flags | port, 0, 0]) + struct.pack("<II", number_after(words, "tag"), 0) + bytes(4)
            + struct.pack("<II", number_after(words, "offset"), number_after(words, "count")) + bytes(4))


def made(frame: str, port: int, slots: tuple[int, ...]) -> bytes:
    """A FIS of these words, with this PM Port."""
    words = plain_words(frame)
    if words[0] == "h2d":
        return register_fis(words, port, slots)
    if words[0] == "d2h":
        return answer_fis(words, port)
    if words[0] == "setup":
        return setup_fis(words, port)
    if words[0] == "bits":
        notify = 0x80 if "notify" in words else 0
        return (bytes([0xA1, notify | port, hex_after(words, "status"), hex_after(words, "error")])
                + struct.pack("<I", hex_after(words, "sactive")))
    if words[0] == "activate":
        return bytes([0x39, port, 0, 0])
    if words[0] == "pio":
        return (bytes([0x5F, 0x20 | port, hex_after(words, "status"), 0]) + bytes(12)
                + struct.pack("<H", number_after(words, "bytes")) + bytes(2))
    if words[0] == "data":
        return bytes([0x46, port, 0, 0]) + bytes(min(number_after(words, "bytes"), LONGEST - 4))
    length = min(max(number_after(words, "bytes"), 4), LONGEST)
    return bytes([hex_after(words, "type"), port]) + bytes(length - 2)


def bytes_of(step: Step) -> Optional[tuple[bytes, bool]]:
    """The bytes of the FIS of a step as its link has them, and whether they are of the trace and not made of its words. On a
    device's link PM Port is 0."""
    if not step.frame:
        return None
    port = step.port if step.port is not None and "disk" not in (step.source, step.target) else 0
    if step.raw:
        return step.raw[:1] + bytes([step.raw[1] & 0xF0 | port]) + step.raw[2:], True
    return made(step.frame, port, step.slots), False
