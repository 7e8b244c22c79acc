"""tools/chart: the rows of a chart, the page as a user drives it in a headless Chromium, and pieces as SVG."""

import html
import json
import os
import re
import subprocess
import tempfile
import unittest
from xml.etree import ElementTree

from helping import TOOLS, TOP, defined, example, example_names, generated, lockstep, needs, needs_defined, tool
from drawing.page import chart_data
from drawing.timeline import AGAIN, PASSED_OVER, ROUTES, SENT_AGAIN, TAKEN_BACK, UNSENT, causes_of, items_of, parting
from library.reading import read_run
from model import casetext, journal, replay
from model.events import MSG

CHROMIUM = ("chromium", "--headless=new", "--no-sandbox", "--disable-gpu", "--hide-scrollbars")
DRIVE = os.path.join(TOOLS, "tests", "chart_drive.js")
SIZES = ((1600, 900), (1000, 700), (480, 860))
# Flooding routers with long delays, so that schedules roll back much.
SHAKY = b"""defined 1
period 1000
groups 12
seed 3
router a flood
router b flood
router c flood
router d flood
link a b 200 1
link b c 900 1
link c d 400 1
link a c 1700 1
link b d 50 1
feed
@0 a cmd 41
@1 d cmd 4242
@2 c cmd 4343
@3 a down 0
@5 a up 0
@6 b cmd 44
@8 d cmd 45
end
"""


def shaken(text: bytes, number: int) -> bytes:
    """A case with its trace and the journal of a schedule, by the model."""
    case = casetext.read_case(text)[0]
    ending, steps = replay.shake(case, number, 100_000)
    assert ending == "ok"
    return lockstep(text) + journal.write_journal(case, steps)


def storm() -> bytes:
    """The output for storm_40 of bench/inputs.py with five commands more: 20,314 rows."""
    more = b"".join(b"@0 r0 cmd ff%02x\n" % number for number in range(5))
    with tempfile.TemporaryDirectory() as folder:
        subprocess.run(["python3", os.path.join(TOP, "bench", "inputs.py"), folder], check=True)
        with open(os.path.join(folder, "storm_40.case"), "rb") as file:
            return lockstep(file.read().replace(b"feed\n", b"feed\n" + more))


class Rows(unittest.TestCase):
    """The rows of a chart."""

    def test_each_row_stands(self):
        """Every row of the examples and of generated runs is in the chart, once and in order."""
        texts = [(name, example(name)) for name in example_names()] + [(name, text) for name, text, _ in generated(6)]
        for name, text in texts:
            run = read_run(text, need="trace")
            if run.rows:
                items = items_of(run)
                self.assertEqual([item.number for item in items], [row.number for row in run.rows], name)
                self.check_causes(items)

    def check_causes(self, items) -> None:
        """A message's row was sent at the moment of the row that caused it, by that row's router."""
        for item, cause in zip(items, causes_of(items)):
            if item.event[2][0] == MSG:
                self.assertEqual((items[cause].router, items[cause].moment), (item.sender, item.sent))

    def test_signs(self):
        """The six routers: rows that change routes, and Updates that are passed over."""
        items = items_of(read_run(example("six_routers")))
        changing = [item for item in items if item.flags & ROUTES]
        self.assertIn("now 10.0.6.0/24 cost 31 via b, d", " ".join(item.words for item in changing))
        self.assertTrue(any(item.flags & PASSED_OVER and item.kind == "update" for item in items))
        self.assertFalse(any(item.flags for item in items_of(read_run(example("six_routers")), False)))

    def test_rollbacks(self):
        """What a journal takes back stands in its place, and the rows of the trace stand as without it."""
        kinds = 0
        for number in range(1, 9):
            run = read_run(shaken(SHAKY, number))
            items = items_of(run)
            self.assertEqual([item.number for item in items if item.number], list(range(1, len(run.rows) + 1)))
            self.assertEqual([item.moment for item in items], sorted(item.moment for item in items))
            for item in items:
                kinds |= item.flags
                self.assertEqual(item.number == 0, bool(item.flags & (TAKEN_BACK | UNSENT)))
        self.assertEqual(kinds & (AGAIN | SENT_AGAIN | UNSENT), AGAIN | SENT_AGAIN | UNSENT)

    def test_a_journal_alone(self):
        """A journal without a trace has the rows that it has handled."""
        steps = b"journal\ninject @0 a cmd 41\nhandle b\nbeacon\nhandle b\nhandle a\nend journal 5\n"
        items = items_of(read_run(example("two_routers", ".case") + steps))
        self.assertEqual([item.number for item in items], [1, 2, 3])

    def test_parting(self):
        """Two runs part at the first row that isn't the same without its tie."""
        one = items_of(read_run(example("six_routers")))
        other = items_of(read_run(lockstep(example("six_routers", ".case").replace(b"seed 9", b"seed 10"))))
        first, second = parting(one, other)
        self.assertEqual(first, second)
        self.assertNotEqual(one[first].event[1:], other[second].event[1:])
        self.assertIsNone(parting(one, one))


class Pages(unittest.TestCase):
    """The page's text."""

    def test_no_network(self):
        """The page names no address outside itself, and its data is whole."""
        page = tool("chart", text=example("six_routers")).stdout.decode()
        self.assertNotIn("http", page)
        self.assertNotIn("{{", page.split("<script id=")[0])
        data = json.loads(re.search(r'<script id="data" type="application/json">(.*?)</script>', page, re.S).group(1))
        run = read_run(example("six_routers"))
        self.assertEqual(data, json.loads(json.dumps(chart_data("standard input", [
            ("standard input", run, items_of(run))], None))))

    def test_bad_inputs(self):
        """Each with a part of what is told."""
        six = example("six_routers")
        cases = (((), b"", "line 1"), ((), example("six_routers", ".case"), "neither a trace nor a journal"),
                 (("--mark", "0"), six, "--mark 0"), (("--mark", "99999"), six, "rows 1 to 1728"),
                 (("--svg", "x"), six, "FROM-TO"), (("--svg", "9000-9001"), six, "no such row"),
                 (("--svg", "1-3"), six, "--ticks"), (("--svg", "1-1728"), six, "at most 400"))
        for words, text, told in cases:
            done = tool("chart", *words, text=text)
            self.assertEqual((done.returncode, told in done.stderr.decode()), (1, True), (told, done.stderr))
        with tempfile.NamedTemporaryFile() as other:
            other.write(example("two_routers"))
            other.flush()
            self.assertIn(b"other routers", tool("chart", "--beside", other.name, text=six).stderr)

    def test_pieces(self):
        """Pieces of every example, well formed, with a text for each row."""
        for name in example_names():
            done = tool("chart", "--svg", "1-60", "--ticks", text=example(name))
            self.assertEqual(done.returncode, 0, done.stderr.decode())
            ElementTree.fromstring(done.stdout)
        done = tool("chart", "--svg", "85-104", text=example("six_routers"))
        self.assertEqual(done.stdout.count(b"<polygon"), 20)

    @needs_defined
    def test_from_the_program(self):
        """What shake writes is drawn, with its journal."""
        done = tool("chart", text=defined("shake", "3", "--steps", "1000000", text=SHAKY).stdout)
        self.assertEqual((done.returncode, b"taken back at step" in done.stdout), (0, True))


@needs("chromium", "chromium")
class Browser(unittest.TestCase):
    """The page in a headless Chromium."""

    def drive(self, text: bytes, *words: str) -> dict:
        """What was seen when the page was driven."""
        page = tool("chart", *words, text=text).stdout.decode()
        with open(DRIVE, encoding="utf-8") as file:
            page += '<script type="module">' + file.read() + "</script>"
        with tempfile.TemporaryDirectory() as folder:
            path = os.path.join(folder, "page.html")
            with open(path, "w", encoding="utf-8") as file:
                file.write(page)
            done = subprocess.run([*CHROMIUM, f"--user-data-dir={folder}/chromium", "--window-size=1400,900",
                                   "--virtual-time-budget=8000", "--dump-dom", "file://" + path],
                                  capture_output=True, check=True, timeout=300)
        found = re.search(r'<pre id="seen">(.*?)</pre>', done.stdout.decode())
        self.assertIsNotNone(found, done.stderr.decode()[-2000:])
        return json.loads(html.unescape(found.group(1)))

    def check(self, seen: dict, rows: int, ticks: int) -> None:
        """What holds of every page that was driven."""
        self.assertNotIn("error", seen)
        self.assertEqual((seen["rows"], seen["shown"], seen["afterKind"]), (rows, rows - ticks, rows))
        self.assertTrue(seen["sameRouter"])
        self.assertEqual((seen["back"], seen["scale"]), (seen["first"], "time"))
        self.assertLess(seen["afterRouter"], rows)
        self.assertIn("Row %d at" % seen["first"], seen["details"])
        self.assertIn("row=0.", seen["address"])
        self.assertIn("without=", seen["lastAddress"])
        self.assertIsNotNone(seen["clicked"])
        self.assertAlmostEqual(seen["wholeHeight"], 1)

    def test_six_routers(self):
        """The six routers."""
        seen = self.drive(example("six_routers"))
        self.check(seen, 1728, 1200)
        self.assertEqual((seen["found"], seen["match"]), ("268 matches", 8))

    def test_many_rows(self):
        """20,314 rows."""
        self.check(self.drive(storm(), "--quick"), 20_314, 64)

    def test_screenshots(self):
        """Three sizes, light and dark, of one run, of two, and of a journal."""
        pages = [(example("six_routers"), ()), (shaken(SHAKY, 2), ())]
        with tempfile.TemporaryDirectory() as folder:
            other = os.path.join(folder, "other.out")
            with open(other, "wb") as file:
                file.write(lockstep(example("six_routers", ".case").replace(b"seed 9", b"seed 10")))
            pages.append((example("six_routers"), ("--beside", other, "--mark", "100")))
            for number, (text, words) in enumerate(pages):
                width, height = SIZES[number]
                for theme in ("light", "dark"):
                    shot = self.screenshot(folder, text, words, theme, SIZES[number])
                    size = int.from_bytes(shot[16:20], "big"), int.from_bytes(shot[20:24], "big")
                    self.assertEqual((shot[1:4], *size), (b"PNG", width, height))
                    self.assertGreater(len(shot), 30_000)

    def screenshot(self, folder: str, text: bytes, words: tuple, theme: str, size: tuple[int, int]) -> bytes:
        """A screenshot of a page."""
        path, shot = os.path.join(folder, "page.html"), os.path.join(folder, "shot.png")
        made = tool("chart", *words, "-o", path, text=text)
        self.assertEqual(made.returncode, 0, made.stderr.decode())
        subprocess.run([*CHROMIUM, f"--user-data-dir={folder}/chromium", "--window-size=%d,%d" % size,
                        "--virtual-time-budget=3000", "--screenshot=" + shot, f"file://{path}#theme={theme}"],
                       capture_output=True, check=True, timeout=300)
        with open(shot, "rb") as file:
            return file.read()


if __name__ == "__main__":
    unittest.main()
