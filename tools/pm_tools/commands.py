"""What the tools share as commands: their parsers, and how one ends that cannot read its input."""
from __future__ import annotations

import argparse
import contextlib
import sys
from pathlib import Path
from typing import Iterator, Optional


class Refused(Exception):
    """The input is none for this tool, and why."""


def parser_of(name: str, told: Optional[str]) -> argparse.ArgumentParser:
    return argparse.ArgumentParser(prog=name, description=told, formatter_class=argparse.RawDescriptionHelpFormatter)


def add_trace(words: argparse._ActionsContainer) -> None:
    words.add_argument("trace", nargs="?", type=Path, metavar="TRACE", help="the trace; without it, standard input")


@contextlib.contextmanager
def reading(name: str) -> Iterator[None]:
    """Ends the tool of this name with status 1 where its input is refused, and with 4 where it cannot be read."""
    try:
        yield
    except (Refused, OSError, UnicodeDecodeError) as error:
        is_refused = isinstance(error, Refused)
        print(f"{name}: {'' if is_refused else 'cannot be read: '}{error}", file=sys.stderr)
        sys.exit(1 if is_refused else 4)
