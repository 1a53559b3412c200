"""The program pm_trace, as the tools run it."""
from __future__ import annotations

import os
import subprocess
from dataclasses import dataclass
from pathlib import Path
from typing import Sequence

from pm_tools.commands import Refused

TOP = Path(__file__).resolve().parents[2]


class NotPlayed(Refused):
    """The scenario cannot be played so, and why."""


@dataclass(frozen=True)
class Ended:
    """How a run ended; the status is None where it took too long."""

    status: int | None
    printed: str
    errors: str


@dataclass(frozen=True)
class Program:
    """A program that is called as pm_trace is."""

    path: Path
    seconds: float = 300

    @staticmethod
    def found() -> "Program":
        """The program that bin/pm_trace names in PM_TRACE; without it, bin/pm_trace itself."""
        return Program(Path(os.environ.get("PM_TRACE") or TOP / "bin/pm_trace"))

    def play(self, words: Sequence[str], text: str) -> Ended:
        """Plays a scenario, given as standard input."""
        try:
            run = subprocess.run([str(self.path), *words], input=text.encode(), capture_output=True, timeout=self.seconds)
        except subprocess.TimeoutExpired as late:
            return Ended(None, (late.stdout or b"").decode(errors="replace"), (late.stderr or b"").decode(errors="replace"))
        return Ended(run.returncode, run.stdout.decode(errors="replace"), run.stderr.decode(errors="replace"))

    def lines(self, words: Sequence[str], text: str) -> list[str]:
        """The lines that a scenario prints which ends well."""
        ended = self.play(words, text)
        if ended.status != 0:
            raise NotPlayed(f"the scenario ends with status {ended.status}: {ended.errors.strip()}")
        return ended.printed.splitlines()
