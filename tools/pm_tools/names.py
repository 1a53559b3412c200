"""Steps and FISes in few words, and the fields of a FIS, all from the words of the trace."""
from __future__ import annotations

import re

from pm_tools.trace import GUEST_ACTS, Step

STATUS_BITS = {0x80: "BSY", 0x40: "DRDY", 0x20: "DF", 0x08: "DRQ", 0x01: "ERR"}
ERROR_BITS = {0x40: "UNC", 0x10: "IDNF", 0x04: "ABRT"}
FIELDS = ("status", "error", "value", "sactive", "tag", "offset", "count", "lba", "sectors", "command", "control", "bytes",
          "type", "port")
FLAGS = ("signature", "reset", "notify", "auto")


def plain_words(frame: str) -> list[str]:
    """The words of a FIS, without the bits that a trace spells behind Status and Error."""
    return [word for word in frame.split() if not re.fullmatch(r"[A-Z]{2,}", word)]


def short_name(frame: str) -> str:
    """A FIS on its arrow: short enough for the room between two lanes."""
    words = plain_words(frame)
    if words[0] == "h2d":
        queued = words[1].endswith("queued")
        return " ".join(words[1:6:2] if queued else (word for word in words[1:] if word != "value"))[:32]
    if words[0] == "setup":
        return " ".join([f"setup tag {words[2]} +{words[6]} {words[8]}", *words[9:]])
    if words[0] == "bits":
        return f"bits {words[2]} {words[6]}" if words[4] == "00" else f"bits {words[2]} error {words[4]}"
    if words[0] == "d2h":
        return " ".join(["d2h", words[2], *(["error", words[4]] if words[4] != "00" else []), *words[5:]])
    if words[0] == "data":
        return f"data {words[2]}"
    return frame[:30]


def note_of(step: Step) -> str:
    """What came of a step."""
    if step.act in ("came", "gone", "records"):
        return step.said()
    if step.act in GUEST_ACTS:
        return step.said().removeprefix(f"{GUEST_ACTS[step.act]} ").removeprefix("controller ")
    if step.act == "drives":
        said = step.said().split(" (it ", 1)[0]
        for start in ("driver, ", "driver: ", "driver "):
            said = said.removeprefix(start)
        return said
    came = step.text.split("; ", 1)[1] if "; " in step.text else ""
    return re.sub(r"\b(fault [\w-]+) of .*", r"\1", came)  # without all requests that were out


def spelled(value: int, bits: dict[int, str]) -> str:
    return " ".join(name for bit, name in bits.items() if value & bit)


def meaning_of(name: str, value: str) -> str:
    """What the bits of a field spell, or nothing."""
    if name not in ("status", "error", "sactive"):
        return ""
    number = int(value, 16)
    if name == "sactive":
        tags = [str(tag) for tag in range(32) if number >> tag & 1]
        return f"tag{'s' if len(tags) != 1 else ''} {', '.join(tags)}" if tags else ""
    return spelled(number, STATUS_BITS if name == "status" else ERROR_BITS)


def fields_of(frame: str) -> list[tuple[str, str, str]]:
    """The fields of a FIS: name, value and what that spells."""
    words = plain_words(frame)
    found = [("FIS", words[0], "")]
    at = 1
    while at < len(words):
        word = words[at]
        if word in FIELDS and at + 1 < len(words):
            found.append((word, words[at + 1], meaning_of(word, words[at + 1])))
            at += 2
        elif word == "to" and at + 1 < len(words):
            found.append(("direction", f"to {words[at + 1]}", ""))
            at += 2
        else:
            found.append(("flag" if word in FLAGS else "register" if "[" in word else "command", word, ""))
            at += 1
    return found
