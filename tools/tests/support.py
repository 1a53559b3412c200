"""What the tests share: the repository's files, a program where one is built, and the tools as they are called."""
from __future__ import annotations

import contextlib
import importlib
import io
import os
import unittest
from dataclasses import dataclass
from pathlib import Path
from typing import Optional

TOP = Path(__file__).resolve().parents[2]
DATA = Path(__file__).parent / "data"


def built_program() -> Optional[Path]:
    """A program that is built: the one in PM_TRACE, the proved one, or the one without a proof."""
    places = (os.environ.get("PM_TRACE"), TOP / "crates/pm_trace/out/pm_trace", TOP / "build/unproved/pm_trace")
    return next((Path(place) for place in places if place and os.access(place, os.X_OK)), None)


needs_program = unittest.skipUnless(built_program(), "no program is built")


@dataclass(frozen=True)
class Said:
    """What a tool printed, and its status."""

    status: int
    out: str
    err: str


def call(tool: str, *words: object) -> Said:
    """Calls the main function of a tool."""
    out, err = io.StringIO(), io.StringIO()
    main = importlib.import_module(f"pm_tools.{tool}").main
    with contextlib.redirect_stdout(out), contextlib.redirect_stderr(err):
        try:
            status = main([str(word) for word in words])
        except SystemExit as ended:
            status = int(ended.code or 0)
    return Said(status, out.getvalue(), err.getvalue())
