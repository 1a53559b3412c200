"""The tools of bin/pm_trace, by their names. With --check before the name, only the words of the tool are judged."""
from __future__ import annotations

import importlib
import sys

TOOLS = ("diff", "shrink", "fuzz", "perfetto", "pcapng")


def main() -> int:
    words = sys.argv[1:]
    is_checked = words[:1] == ["--check"]
    name, *rest = words[is_checked:] or [""]
    if name not in TOOLS:
        print(f"wanted one of {', '.join(TOOLS)}", file=sys.stderr)
        return 2
    tool = importlib.import_module(f"pm_tools.{name}")
    if is_checked:
        tool.parser().parse_args(rest)
        return 0
    status: int = tool.main(rest)
    return status


if __name__ == "__main__":
    sys.exit(main())
