"""Traces that are compared."""
import tempfile
import unittest
from pathlib import Path

from support import DATA, TOP, call

ONE_READ = TOP / "cases/trace/one-read.out"
JSON = TOP / "cases/trace/json.out"


class Diff(unittest.TestCase):
    def setUp(self) -> None:
        folder = tempfile.TemporaryDirectory()
        self.addCleanup(folder.cleanup)
        self.folder = Path(folder.name)

    def write(self, name: str, text: str) -> Path:
        path = self.folder / name
        path.write_text(text)
        return path

    def test_a_trace_is_like_itself_in_json_and_text(self) -> None:
        text = "\n".join(line for line in ONE_READ.read_text().splitlines() if line.startswith("#")) + "\n"
        said = call("diff", ONE_READ, self.write("text", text))
        self.assertEqual(said.status, 0)
        self.assertEqual(said.out, "driver: 9 steps alike\nport 0: 42 steps alike\ncontrol port: 45 steps alike\n")

    def test_numbers_do_not_count(self) -> None:
        shifted = ONE_READ.read_text().replace("slot 0 ticket 1", "slot 3 ticket 7").replace("tag 0", "tag 3")
        path = self.write("shifted", shifted.replace("sactive 00000001", "sactive 00000008"))
        self.assertEqual(call("diff", ONE_READ, path).status, 0)
        self.assertEqual(call("diff", "--exact", ONE_READ, path).status, 1)

    def test_what_differs_is_shown_in_its_port(self) -> None:
        path = self.write("other", ONE_READ.read_text().replace("50 error 00 sactive 00000001", "41 error 40 sactive 00000001"))
        said = call("diff", ONE_READ, path)
        self.assertEqual(said.status, 1)
        self.assertRegex(said.out, r"(?m)^port 0: differs\n")
        self.assertRegex(said.out, r"(?m)^- #91 .*bits status 50 error 00")
        self.assertRegex(said.out, r"(?m)^\+ #91 .*bits status 41 error 40")
        self.assertRegex(said.out, r"(?m)^control port: \d+ steps alike$")

    def test_the_order_of_ports_counts_where_it_is_asked_for(self) -> None:
        lines = (DATA / "bad-sector.json").read_text().splitlines()
        at = next(i for i in range(150, len(lines) - 1)
                  if '"port":0' in lines[i] and '"port":2' in lines[i + 1] and '"step"' in lines[i] and '"step"' in lines[i + 1])
        lines[at], lines[at + 1] = lines[at + 1].replace('"step":', '"step":9'), lines[at].replace('"step":', '"step":9')
        path = self.write("turned", "\n".join(lines) + "\n")
        self.assertEqual(call("diff", DATA / "bad-sector.json", path).status, 0)
        self.assertEqual(call("diff", "--order", DATA / "bad-sector.json", path).status, 1)

    def test_a_guest_is_compared_by_the_link_alone(self) -> None:
        guest = TOP / "cases/guest/linux-two-disks.out"
        said = call("diff", guest, JSON)
        self.assertEqual(said.status, 1)
        self.assertNotIn("driver", said.out)
        self.assertEqual(call("diff", guest, guest).status, 0)

    def test_what_is_no_trace_is_refused(self) -> None:
        self.assertEqual((call("diff", ONE_READ, TOP / "VERSION").status, call("diff", ONE_READ, "no-such").status), (1, 4))
