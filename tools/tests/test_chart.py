"""The chart as a picture and as a page."""
import json
import re
import shutil
import subprocess
import tempfile
import unittest
from pathlib import Path
from xml.etree import ElementTree

from pm_tools.ladder import TOP as EDGE
from pm_tools.ladder import Window, ladder_of
from pm_tools.names import fields_of
from pm_tools.trace import read_json
from support import DATA, TOP, call

ONE_READ = TOP / "cases/trace/json.out"
STEPS = read_json(ONE_READ.read_text().splitlines()).steps
CHROMIUM = shutil.which("chromium") or shutil.which("chromium-browser")


class Windows(unittest.TestCase):
    def setUp(self) -> None:
        self.submit = next(step.number for step in STEPS if step.submitted)
        self.poll = next(step.number for step in STEPS if step.ended)

    def test_a_request_in_flight_has_its_bar(self) -> None:
        ladder = ladder_of(STEPS, Window(self.submit + 8, self.poll - 4))
        [request] = [bar for bar in ladder.bars if not bar.is_issued]
        self.assertEqual((request.slot, request.ticket, request.begin, request.end), (0, 1, EDGE, ladder.bottom))

    def test_a_request_of_a_cut_trace_has_its_bar(self) -> None:
        ladder = ladder_of([step for step in STEPS if step.number > self.submit + 4], Window())
        self.assertEqual([(bar.begin, bar.is_issued) for bar in ladder.bars], [(EDGE, True), (EDGE, False)])

    def test_a_request_that_is_over_has_none(self) -> None:
        self.assertEqual(ladder_of(STEPS, Window(self.poll + 1)).bars, [])

    def test_arrows_over_the_edge_have_names(self) -> None:
        send = next(step for step in STEPS if step.act == "sends" and step.submitted is False and step.number > self.submit)
        above = ladder_of(STEPS, Window(send.number + 1))
        below = ladder_of(STEPS, Window(0, send.number))
        self.assertEqual([arrow.label for arrow in above.arrows if arrow.begin == EDGE], ["read-queued 8 1"])
        self.assertEqual([arrow.label for arrow in below.arrows if arrow.is_cut], ["read-queued 8 1"])
        self.assertEqual([arrow.end for arrow in below.arrows if arrow.is_cut], [below.bottom])

    def test_another_port_is_left_out(self) -> None:
        steps = read_json((DATA / "bad-sector.json").read_text().splitlines()).steps
        ladder = ladder_of(steps, Window(port=2))
        self.assertEqual(ladder.lanes, ["driver", "host", "pm", "disk 2"])
        self.assertEqual({bar.port for bar in ladder.bars}, {2})


class Words(unittest.TestCase):
    def test_a_picture_is_xml_and_has_each_arrow(self) -> None:
        said = call("chart", ONE_READ)
        root = ElementTree.fromstring(said.out)
        self.assertEqual(said.status, 0)
        self.assertIn("setup tag 0 +0 512", "".join(root.itertext()))

    def test_what_is_no_trace_is_refused(self) -> None:
        self.assertEqual((call("chart", TOP / "README.md").status, call("chart", "--html", TOP / "README.md").status), (1, 1))
        self.assertEqual((call("chart", "--from", 100000, ONE_READ).out, call("chart", TOP / "no-such-file").status), ("", 4))
        self.assertEqual(call("chart", "--port", "16", ONE_READ).status, 2)

    def test_a_guest_is_drawn_by_its_link(self) -> None:
        said = call("chart", "--page", 1000, TOP / "cases/guest/linux-two-disks.out").out
        lanes = [text.text for text in ElementTree.fromstring(said).iter("{http://www.w3.org/2000/svg}text") if text.get("class") == "l"]
        self.assertEqual(lanes, ["driver", "host", "pm"])
        self.assertIn(">d2h 50 error 01 signature<", said)

    def test_bits_that_a_trace_spells_are_no_fields(self) -> None:
        self.assertEqual(fields_of("d2h status 41 DRDY ERR error 40 UNC"), fields_of("d2h status 41 error 40"))

    def test_fields_are_spelled(self) -> None:
        self.assertEqual(fields_of("bits status 41 error 40 sactive 00000005"),
                         [("FIS", "bits", ""), ("status", "41", "DRDY ERR"), ("error", "40", "UNC"),
                          ("sactive", "00000005", "tags 0, 2")])


class Page(unittest.TestCase):
    def test_the_page_stands_alone_and_has_all_steps(self) -> None:
        page = call("chart", "--html", "--title", "a < b", DATA / "bad-sector.json").out
        [found] = re.findall(r'<script id="data" type="application/json">(.*?)</script>', page, re.S)
        data = json.loads(found)
        self.assertEqual(len(data["steps"]), len(read_json((DATA / "bad-sector.json").read_text().splitlines()).steps))
        self.assertIn("<title>a &lt; b</title>", page)
        self.assertNotRegex(page.replace("http://www.w3.org/2000/svg", ""), r"https?://|src=|@[A-Z]+@")

    @unittest.skipUnless(CHROMIUM, "needs chromium")
    def test_a_browser_opens_it_as_it_is_asked(self) -> None:
        shown = self.dom("port=2&ticket=3&step=164&search=read-queued")
        self.assertRegex(shown, r"<td[^>]*>41  DRDY ERR</td>")
        self.assertRegex(shown, r'<td class="bad">task-file</td>')
        self.assertIn(">disk 2</text>", shown)
        self.assertNotIn(">disk 0</text>", shown)
        self.assertRegex(shown, r'id="finds">\d+ found<')

    @unittest.skipUnless(CHROMIUM, "needs chromium")
    def test_a_browser_answers_to_clicks(self) -> None:
        shown = self.dom("", """
            const change = (element, value) => { element.value = value; element.dispatchEvent(new Event("change")); };
            change(page.port, "0");
            page.search.value = "setup tag";
            page.search.dispatchEvent(new Event("input"));
            page.next.click();
            page.larger.click();
            document.title = [page.finds, page.plain, page.panel.querySelector("h2")].map((one) => one.textContent).join(", ");
            change(page.port, "");
            [...document.querySelectorAll(".step line")].find((line) => line.parentNode.dataset.step === "164")
                .dispatchEvent(new MouseEvent("click", { bubbles: true }));""")
        self.assertRegex(shown, r"<title>1 of \d+, 125 %, Step \d+</title>")
        self.assertRegex(shown, r"<h2>Step 164</h2>")
        self.assertRegex(shown, r"<td[^>]*>40  UNC</td>")

    def dom(self, asked: str, script: str = "") -> str:
        """What the page is once a browser has drawn it, and run this script."""
        with tempfile.TemporaryDirectory() as folder:
            page = Path(folder) / "page.html"
            text = call("chart", "--html", DATA / "bad-sector.json").out
            page.write_text(text.replace("</body>", f"<script>{script}</script></body>"))
            run = subprocess.run([str(CHROMIUM), "--headless", "--no-sandbox", "--disable-gpu", "--virtual-time-budget=2000",
                                  "--dump-dom", f"{page.as_uri()}#{asked}"], capture_output=True, timeout=300)
        return run.stdout.decode()
