"""What is installed beside the programs: each word of a help is completed, and stands in a manual page, and these pages pass mandoc's
lint, where that is installed."""
from __future__ import annotations

import re
import shutil
import subprocess
import unittest

from support import TOP, call

MANUALS = TOP / "packaging/man"
COMPLETION = TOP / "packaging/pm_trace.bash"
TOOLS = ("diff", "shrink", "fuzz", "perfetto", "pcapng")
OPTION = re.compile(r"(?:^|[ \[,|(])(--[a-z]+)", re.MULTILINE)


def program_help() -> str:
    """The help of the program, from its source."""
    source = (TOP / "crates/trace/src/help.rt").read_text()
    return source.split("pub const HELP", 1)[1].split('";\n', 1)[0]


def modes() -> dict[str, set[str]]:
    """The options of each mode of the program, by its help."""
    found: dict[str, set[str]] = {}
    mode = None
    for line in program_help().splitlines():
        head = re.match(r"pm_trace ([a-z]+)", line)
        if head:
            mode = head[1]
            found[mode] = set()
        elif mode and line.startswith("    --"):
            found[mode].add(line.split()[0])
        elif not line.startswith("    "):
            mode = None
    return found


def options_of(tool: str) -> set[str]:
    """The options of a tool, by the line of usage in its help."""
    usage = call(tool, "--help").out.split("\n\n", 1)[0]
    return set(OPTION.findall(usage)) | {"--help"}


def completed(*words: str) -> set[str]:
    """What is offered for the last of these words."""
    script = f"""
        source {COMPLETION}
        COMP_WORDS=("$@") COMP_CWORD=$(($# - 1))
        "_$1"
        printf '%s\\n' "${{COMPREPLY[@]}}"
    """
    ran = subprocess.run(["bash", "-c", script, "bash", *words], capture_output=True, text=True, check=True)
    return set(ran.stdout.split())


def manual(name: str) -> str:
    """A page as plain text: hyphens as they are typed."""
    return (MANUALS / name).read_text().replace("\\-", "-")


class Completion(unittest.TestCase):
    def test_the_first_word(self) -> None:
        wanted = {*modes(), *TOOLS, "--help", "--version"}
        self.assertEqual(completed("pm_trace", ""), wanted)

    def test_the_options_of_a_mode(self) -> None:
        for mode, options in modes().items():
            with self.subTest(mode):
                self.assertEqual({it for it in completed("pm_trace", mode, "--") if it.startswith("--")}, options)

    def test_the_options_of_a_tool(self) -> None:
        for tool in TOOLS:
            with self.subTest(tool):
                self.assertEqual(completed("pm_trace", tool, "--"), options_of(tool))

    def test_the_options_of_the_chart(self) -> None:
        self.assertEqual(completed("pm_chart", "--"), options_of("chart"))

    def test_what_an_option_takes(self) -> None:
        self.assertEqual(completed("pm_trace", "run", "--only", ""), {"faults", "port="})
        self.assertEqual(completed("pm_trace", "pcapng", "--links", "a"), {"all"})


class Manuals(unittest.TestCase):
    def test_each_option_stands_in_a_page(self) -> None:
        page = manual("pm_trace.1")
        for name, options in [*modes().items(), *((tool, options_of(tool)) for tool in TOOLS)]:
            for option in options:
                with self.subTest(f"{name} {option}"):
                    self.assertIn(option, page)
        for option in options_of("chart"):
            with self.subTest(option):
                self.assertIn(option, manual("pm_chart.1"))

    @unittest.skipUnless(shutil.which("mandoc"), "mandoc is not installed")
    def test_mandoc_finds_nothing(self) -> None:
        pages = sorted(MANUALS.iterdir())
        ran = subprocess.run(["mandoc", "-T", "lint", *pages], capture_output=True, text=True, check=False)
        self.assertEqual((ran.stdout + ran.stderr, ran.returncode), ("", 0))


if __name__ == "__main__":
    unittest.main()
