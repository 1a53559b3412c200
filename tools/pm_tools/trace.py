"""Traces of `pm_trace run --json` and `--trace`, and of `guest --json` and `--trace`, as lists of steps."""
from __future__ import annotations

import json
import re
import sys
from dataclasses import dataclass, replace
from pathlib import Path
from typing import Any, Iterable, Iterator, Optional

from pm_tools.commands import Refused

CONTROL_PORT = 15

# What only `guest --json` tells of. The units are those that do it.
GUEST_ACTS = {"reads": "driver", "writes": "driver", "puts": "driver", "ignores": "host", "warns": "host", "ends": "host",
              "line": "host", "fetches": "host", "issues": "host", "refuses": "host", "stores": "host", "open": "host",
              "waits": "host", "drops": "pm", "unheard": "disk", "asks": "disk"}
GUEST_TROUBLE = ("ignores", "warns", "refuses", "drops", "unheard", "open")


class NotATrace(Refused):
    """The input is no trace, and why."""


@dataclass(frozen=True)
class Step:
    """A step that moved something. The names are the keys of the JSON, but `source` for from and `target` for to."""

    number: int
    act: str
    source: str
    target: str
    text: str
    way: Optional[str] = None
    port: Optional[int] = None
    conn: Optional[int] = None
    fis: Optional[int] = None
    frame: Optional[str] = None
    slots: tuple[int, ...] = ()
    tickets: tuple[int, ...] = ()
    done: tuple[int, ...] = ()
    fault: Optional[str] = None
    ignored: bool = False
    dropped: Optional[str] = None
    gone: Optional[bool] = None
    submitted: bool = False
    ended: Optional[str] = None
    raw: Optional[bytes] = None  # the bytes of the FIS, where they are known
    is_whole: bool = False  # it puts a FIS on a link and takes it off, as the steps of `guest --trace` do

    @property
    def is_issue(self) -> bool:
        """Whether the driver issued slots."""
        return self.act == "drives" and ", issued" in self.text

    @property
    def is_trouble(self) -> bool:
        if self.act in GUEST_TROUBLE:
            return True
        return bool(self.fault or self.dropped or self.gone or self.ignored) or (self.ended or "done") != "done"

    @property
    def fis_key(self) -> tuple[Optional[str], Optional[int], Optional[int], Optional[int]]:
        """What one FIS has on each of its links, and no other FIS has."""
        return (self.way, self.port, self.conn, self.fis)

    def requests(self) -> Iterator[tuple[int, int]]:
        """Slot and ticket of each request that it names. A slot without a request is named, too, and has no ticket."""
        return ((int(slot), int(ticket)) for slot, ticket in re.findall(r"\bslot (\d+) ticket (\d+)", self.text))

    def said(self) -> str:
        """Its line without the number."""
        return re.sub(r"^#\d+ ", "", self.text)


@dataclass(frozen=True)
class Trace:
    """All that a program wrote: steps and printed lines, in order."""

    lines: tuple[Step | str, ...]
    is_of_link: bool = False  # its steps are those of the host's link alone, as in the text of `guest --trace`
    is_of_guest: bool = False  # it is of `guest --json`

    @property
    def steps(self) -> list[Step]:
        return [line for line in self.lines if isinstance(line, Step)]

    @property
    def printed(self) -> list[str]:
        return [line for line in self.lines if isinstance(line, str)]


def step_of(fields: dict[str, Any]) -> Step:
    """A step, of its object."""
    known = {key: value for key, value in fields.items() if key in Step.__dataclass_fields__}
    for key in ("slots", "tickets", "done"):
        if key in known:
            known[key] = tuple(known[key])
    if "bytes" in fields:
        known["raw"] = bytes.fromhex(fields["bytes"])
    if not fields["text"].startswith("#"):
        known["text"] = f"#{fields['step']} {fields['text']}"
    if "dropped" not in known and (held := re.search(r"; dropped: (.*)", fields["text"])):
        known["dropped"] = held[1]
    return Step(number=fields["step"], source=fields["from"], target=fields["to"], **known)


def line_of(text: str) -> Step | str | None:
    """A line of JSON: a step, or what was printed; None for a refusal, which is printed behind it, too."""
    fields = json.loads(text)
    if "step" in fields:
        return step_of(fields)
    if "refused" in fields:
        return None
    return str(next(fields[key] for key in ("printed", "error") if key in fields))


def read_json(lines: Iterable[str], name: str = "the input") -> Trace:
    """A trace of `run --json` or of `guest --json`."""
    found: list[Step | str] = []
    for number, line in enumerate(lines, 1):
        try:
            said = line_of(line)
        except (ValueError, KeyError, TypeError, StopIteration) as error:
            raise NotATrace(f"{name}: line {number} is no line of `pm_trace run --json` or `guest --json`") from error
        if said is not None:
            found.append(said)
    if not found:
        raise NotATrace(f"{name} is empty, so it is no trace")
    acts = {line.act for line in found if isinstance(line, Step)}
    if acts - {"sends"} and not acts & GUEST_ACTS.keys():
        return Trace(tuple(found))
    whole = tuple(replace(line, is_whole=True) if isinstance(line, Step) and line.act == "sends" else line for line in found)
    return Trace(whole, is_of_link=acts == {"sends"}, is_of_guest=bool(acts & GUEST_ACTS.keys()))


LINK_WORDS = re.compile(r"(up|down) (?:port (\d+)|control port): (.*)")
STEP_WORDS = re.compile(r"#(?P<number>\d+) (?P<way>up|down) (?P<who>.*?)(?: conn (?P<conn>\d+))? fis (?P<fis>\d+): (?P<said>.*)")
REFUSED_WORDS = re.compile(r"refused at line \d+[,:]")
CHANGE_WORDS = re.compile(r"#(?P<number>\d+) (?P<who>disk|pm records at port) (?P<port>\d+), conn (?P<conn>\d+) (?P<what>came|went)")
DRIVER_WORDS = re.compile(r"#(?P<number>\d+) driver(?P<place>, control port|, port (?P<port>\d+))?(?P<said>.*)")
ENDED_WORDS = re.compile(r" tells (?:(done|aborted|removed|port-error)|device-error (\w\w)(?: [A-Z]+)* (\w\w))\b")
HOPS = {"disk -> pm": ("sends", "disk", "pm"), "pm takes at": ("takes", "disk", "pm"),
        "pm -> host": ("sends", "pm", "host"), "host takes from": ("takes", "pm", "host"),
        "host takes from pm": ("takes", "pm", "host"), "host -> pm": ("sends", "host", "pm"),
        "pm takes": ("takes", "host", "pm"), "pm -> disk": ("sends", "pm", "disk"), "disk takes": ("takes", "pm", "disk")}


def port_of(who: str) -> Optional[int]:
    if "control port" in who:
        return CONTROL_PORT
    named = re.search(r"(?:port|disk) (\d+)", who)
    return int(named[1]) if named else None


def frame_of(said: str) -> str:
    """The FIS of the words after the colon, without slots and what came of it."""
    return re.split(r", slot |; ", said, maxsplit=1)[0]


def slots_in(text: str) -> tuple[int, ...]:
    return tuple(int(slot) for slot in re.findall(r"\bslot (\d+)", text))


def fis_step(line: str) -> Optional[Step]:
    """A line of `run --trace` that has a FIS."""
    found = STEP_WORDS.fullmatch(line)
    if not found:
        return None
    plain = " ".join(re.sub(r"port \d+|control port|\d+|,", " ", found["who"]).split())
    if plain not in HOPS:
        return None
    act, source, target = HOPS[plain]
    fault, dropped = re.search(r"; fault ([\w-]+)", line), re.search(r"; dropped: (.*)", line)
    done = re.search(r"; done ([^;]*)", line)
    return Step(number=int(found["number"]), act=act, source=source, target=target, text=line, way=found["way"],
                port=port_of(found["who"]), conn=int(found["conn"]) if found["conn"] else None, fis=int(found["fis"]),
                frame=frame_of(found["said"]), slots=slots_in(found["said"].split(";")[0]),
                done=slots_in(done[1]) if done else (), fault=fault[1] if fault else None,
                dropped=dropped[1] if dropped else None, ignored="; taken by nobody" in line)


def change_step(line: str) -> Optional[Step]:
    """A line of `run --trace` of a device that came or went."""
    found = CHANGE_WORDS.match(line)
    if not found:
        return None
    is_gone, dropped = found["what"] == "went", re.search(r"; dropped: (.*)", line)
    act = "records" if found["who"] != "disk" else "gone" if is_gone else "came"
    return Step(number=int(found["number"]), act=act, source="disk", target="pm", text=line, port=int(found["port"]),
                conn=int(found["conn"]), gone=is_gone, dropped=dropped[1] if dropped else None)


def ended_of(said: str) -> Optional[str]:
    """How the request ended that the driver tells of, without the bits that are spelled and without why."""
    found = ENDED_WORDS.search(said)
    if not found:
        return None
    return found[1] or f"device-error {found[2]} {found[3]}"


def driver_step(line: str) -> Optional[Step]:
    """A line of `run --trace` of what the driver did."""
    found = DRIVER_WORDS.fullmatch(line)
    if not found:
        return None
    said = found["said"]
    issued = re.match(r": (h2d .*?), slot ", said)
    return Step(number=int(found["number"]), act="drives", source="driver", target="host", text=line,
                port=port_of(found["place"] or ""), frame=issued[1] if issued else None, slots=slots_in(said),
                submitted=" takes a request: " in said, ended=ended_of(said))


def text_step(line: str) -> Optional[Step]:
    """A line of `run --trace`."""
    return fis_step(line) or change_step(line) or driver_step(line)


def link_step(number: int, line: str) -> Optional[Step]:
    """A line of `guest --trace`: a FIS that went over the host's link."""
    found = LINK_WORDS.match(line)
    if not found:
        return None
    way, lost = found[1], re.search(r"; (?:dropped|lost): (.*)", line)
    source, target = ("host", "pm") if way == "down" else ("pm", "host")
    return Step(number=number, act="sends", source=source, target=target, text=f"#{number} {line}", way=way,
                port=int(found[2]) if found[2] else CONTROL_PORT, fis=number, frame=frame_of(found[3]),
                dropped=lost[1] if lost else None, ignored="; taken by nobody" in line, is_whole=True)


def read_text(lines: Iterable[str], name: str = "the input") -> Trace:
    """A trace of `run --trace` or `guest --trace`. All other lines count as printed."""
    found: list[Step | str] = []
    number, is_of_link = 0, False
    for line in (line.rstrip("\n") for line in lines if not REFUSED_WORDS.match(line)):
        on_link = link_step(number + 1, line)
        step = on_link or text_step(line)
        number, is_of_link = number + (step is not None), is_of_link or on_link is not None
        found.append(step or line)
    if not number:
        raise NotATrace(f"{name} has no step of a trace")
    return Trace(tuple(found), is_of_link)


def with_bytes(trace: Trace) -> Trace:
    """The same, each FIS with the bytes that a printed line `sent` or `took` has of it, where one has."""
    found: dict[tuple[Optional[str], Optional[int], Optional[int], Optional[int]], bytes] = {}
    for line in trace.printed:
        words = line.split()
        if len(words) == 5 and words[0] in ("sent", "took"):
            port, conn, fis = map(int, words[1:4])
            found.setdefault(("up", port, conn, fis), bytes.fromhex(words[4]))
    lines = (line if isinstance(line, str) or line.raw else replace(line, raw=found.get(line.fis_key)) for line in trace.lines)
    return replace(trace, lines=tuple(lines))


def read_trace(path: Optional[Path]) -> Trace:
    """The trace of a file or of standard input: of JSON if its first byte is a brace, else of text."""
    name = str(path) if path else "standard input"
    text = path.read_text(encoding="utf-8") if path else sys.stdin.read()
    lines = text.splitlines()
    return with_bytes(read_json(lines, name) if text.startswith("{") else read_text(lines, name))
