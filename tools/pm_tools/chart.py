"""Draws a trace of `pm_trace run` or `pm_trace guest`, of `--json` or `--trace`, as a ladder, in SVG or as a page of HTML:

    bin/pm_trace run --json examples/one-read.scenario | bin/pm_chart > one-read.svg
    bin/pm_trace run --json examples/one-read.scenario | bin/pm_chart --html > one-read.html

A lane for the driver, the host port, the multiplier and each disk; time goes down. An arrow is a FIS on a link, from
the step that sent it to the step that took it, with its decoded name; its colour is that of its device, grey the
control port's. One that comes from before the window or goes on after it reaches to the edge, dashed where it was not
taken. On the left is a bar for each request, in the column of its slot: light from its submit to its poll, dark while
it is issued. On the right stands what came of a step. Red are faults, removals and dropped frames. A step's whole line
shows where the mouse stays on it.

The page of HTML needs nothing else. It zooms, shows only one port or one ticket, finds steps by their words, and shows
the fields of the FIS that is clicked.
"""
from __future__ import annotations

import argparse
import sys
from typing import Optional, Sequence

from pm_tools.commands import add_trace, parser_of, reading
from pm_tools.ladder import Window, ladder_of
from pm_tools.page import page_of
from pm_tools.svg import svg_of
from pm_tools.trace import NotATrace, read_trace


def parser() -> argparse.ArgumentParser:
    words = parser_of("pm_chart", __doc__)
    words.add_argument("--html", action="store_true", help="a page of HTML in place of a picture")
    words.add_argument("--from", dest="first", type=int, default=0, metavar="N", help="only steps from number N on")
    words.add_argument("--to", dest="last", type=int, metavar="N", help="only steps up to number N")
    words.add_argument("--port", type=int, choices=range(16), metavar="N", help="only the device at port N and the control port")
    words.add_argument("--page", type=int, default=50, metavar="ROWS",
                       help="name the lanes anew after each ROWS rows of a picture (50)")
    words.add_argument("--title", default="pm_trace", help="the title")
    add_trace(words)
    return words


def main(words: Optional[Sequence[str]] = None) -> int:
    given = parser().parse_args(words)
    with reading("pm_chart"):
        trace = read_trace(given.trace)
        ladder = ladder_of(trace.steps, Window(given.first, given.last, given.port))
        if not ladder.steps:
            raise NotATrace("no step of the trace is to be drawn")
    sys.stdout.write(page_of(ladder, given.title) if given.html else svg_of(ladder, given.title, max(1, given.page)))
    return 0
