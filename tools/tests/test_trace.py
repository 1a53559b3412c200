"""Reading traces."""
import re
import unittest
from dataclasses import replace

from pm_tools.trace import NotATrace, read_json, read_text, with_bytes
from support import DATA, TOP

JSON = (TOP / "cases/trace/json.out").read_text().splitlines()


class Warnings(unittest.TestCase):
    """docs/SCENARIOS.md has each warning of the program with its section."""

    def test_the_table_has_what_the_case_prints(self) -> None:
        printed = set(re.findall(r"warning: (.*) \(AHCI 1.3.1, (.*)\)", (TOP / "cases/guest/warnings.out").read_text()))
        table = re.findall(r"^\| `(.*?)`.* \| (\d+\.\d+\.\d+) \|$", (TOP / "docs/SCENARIOS.md").read_text(), re.MULTILINE)
        told = {(re.sub(r"\b[NPDT]\b", r"\\d+", rule), section) for rule, section in table}
        self.assertEqual(len(printed), len(told))
        for rule, section in printed:
            self.assertTrue(any(re.fullmatch(words, rule) and section == other for words, other in told), rule)


class Reading(unittest.TestCase):
    def test_json_has_steps_and_printed_lines(self) -> None:
        trace = read_json(JSON)
        self.assertEqual([step.number for step in trace.steps[:3]], [1, 2, 3])
        self.assertEqual(trace.printed[0], "ports 1 capacity 4 memory 2")
        self.assertEqual([step.ended for step in trace.steps if step.ended], ["done"])

    def test_text_has_the_same_steps(self) -> None:
        for lines in (JSON, *((DATA / f"{name}.json").read_text().splitlines() for name in ("honest", "bad-sector"))):
            for step in read_json(lines).steps:
                # The text has the tickets beside their slots, and the JSON has them by themselves.
                [other] = read_text([step.text]).steps
                self.assertEqual(replace(other, tickets=step.tickets), step)

    def test_guest_lines_are_of_the_link(self) -> None:
        trace = read_text((TOP / "cases/guest/linux-two-disks.out").read_text().splitlines())
        self.assertTrue(trace.is_of_link)
        self.assertEqual({(step.source, step.target) for step in trace.steps}, {("host", "pm"), ("pm", "host")})

    def test_json_of_a_guest_has_more_than_its_link(self) -> None:
        trace = read_json((TOP / "cases/guest/json.out").read_text().splitlines())
        self.assertEqual((trace.is_of_guest, trace.is_of_link), (True, False))
        self.assertEqual({step.act for step in trace.steps}, {"writes", "reads", "puts", "fetches", "issues", "sends", "line", "stores",
                                                              "asks", "warns", "open"})
        self.assertEqual([step.act for step in trace.steps if step.is_trouble], ["warns", "sends", "open"])
        self.assertEqual({step.is_whole for step in trace.steps if step.act == "sends"}, {True})

    def test_what_is_no_trace_is_refused(self) -> None:
        texts: tuple[list[str], ...] = ([], ["hello"], ['{"x":1}'], ["[1]"], [*JSON, "hello"], ['{"step":1}'])
        for lines in texts:
            with self.assertRaises(NotATrace):
                read_json(lines)
        with self.assertRaises(NotATrace):
            read_text(["hello", "ports 1"])

    def test_bytes_come_from_the_lines_that_have_them(self) -> None:
        trace = with_bytes(read_json((DATA / "honest.json").read_text().splitlines()))
        [data, *others] = [step for step in trace.steps if step.frame == "data bytes 512" and step.fis == 9]
        self.assertTrue(data.raw and data.raw.hex().startswith("4600000001080f16"))
        self.assertEqual({step.raw for step in others}, {data.raw})

    def test_frames_that_a_removal_dropped_are_told(self) -> None:
        line = '{"step":1,"act":"records","from":"disk","to":"pm","port":1,"conn":1,"gone":true,' \
               '"text":"#1 pm records at port 1, conn 1 went; dropped: the 2 frames that it held"}'
        self.assertEqual(read_json([line]).steps[0].dropped, "the 2 frames that it held")
