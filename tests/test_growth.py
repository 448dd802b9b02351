"""The picture of how times grow (tools/growth) against the tables of docs/PERFORMANCE.md."""

import pathlib
import re
import subprocess
import sys
import tempfile
import unittest
from xml.etree import ElementTree

ROOT = pathlib.Path(__file__).resolve().parent.parent
GROWTH = ROOT / "tools" / "growth"
DOCUMENT = ROOT / "docs" / "PERFORMANCE.md"
SVG = "{http://www.w3.org/2000/svg}"

# Each chart, in the order of the picture: its measures, and how many ns its unit has.
ROUNDS = [f"{links} round, N = {n}" for links in ("full-mesh", "sparse") for n in (2, 8, 16)]
LISTINGS = [f"listing, full-mesh round, N = 16, of {rounds}" for rounds in (1000, 10000, 100000)]
FORECASTS = [f"forecast, 2048 full-mesh rounds, N = {n}, a round" for n in (2, 8, 16)]
LOGS = [f"forecast, {rounds} full-mesh rounds, N = 16, a round" for rounds in (256, 2048)]
CHARTS = [(ROUNDS[:3], 1000), (ROUNDS[3:], 1000), (LISTINGS, 1000), (FORECASTS, 1), (LOGS, 1)]
# Where the points of each stand across, as a part of the way from the first to the last.
ACROSS = [(0, 6 / 14, 1), (0, 6 / 14, 1), (0, 0.5, 1), (0, 6 / 14, 1), (0, 1)]


def run(*names):
    return subprocess.run([sys.executable, str(GROWTH), *map(str, names)], capture_output=True, check=False)


def run_on(text):
    """The finished command on a document of this text."""
    with tempfile.TemporaryDirectory() as folder:
        name = pathlib.Path(folder, "d")
        name.write_text(text, encoding="utf-8")
        return run(name)


def row(text, measure):
    """The row of a measure: the whole line, and its two times."""
    found = re.search(rf"^\| {re.escape(measure)} \| ([\d,.]+) \| ([\d,.]+) \|.*\n", text, re.M)
    return found[0], {side: float(found[at].replace(",", "")) for at, side in enumerate(("project", "peer"), 1)}


def middle(mark):
    """The place of a circle or a square."""
    if mark.tag == SVG + "circle":
        return float(mark.get("cx")), float(mark.get("cy"))
    left, top, width, height = (float(mark.get(name)) for name in ("x", "y", "width", "height"))
    return left + width / 2, top + height / 2


class Pictures(unittest.TestCase):
    def check(self, text, svg):
        """Every time stands at its place on the axes, with its value beside it."""
        root = ElementTree.fromstring(svg)
        charts = [group for group in root.iter(SVG + "g") if group.get("class") == "chart"]
        self.assertEqual(len(charts), len(CHARTS))
        for chart, (measures, unit), across in zip(charts, CHARTS, ACROSS):
            ticks = sorted((float(one.get("data-time")), float(one.get("y")) - 4)
                           for one in chart.iter(SVG + "text") if one.get("data-time"))
            (least, bottom), (most, top) = ticks[0], ticks[-1]
            self.assertEqual(least, 0)
            points = {(one.get("data-measure"), one.get("class")): one for one in chart.iter(SVG + "g")
                      if one.get("data-measure")}
            self.assertEqual(set(points), {(measure, side) for measure in measures for side in ("project", "peer")})
            for side, form in (("project", "circle"), ("peer", "rect")):
                places = [middle(points[measure, side].find(SVG + form)) for measure in measures]
                for measure, part, (x, y) in zip(measures, across, places):
                    time = row(text, measure)[1][side] / unit
                    self.assertLessEqual(time, most)
                    self.assertAlmostEqual(x, places[0][0] + part * (places[-1][0] - places[0][0]), delta=0.2)
                    self.assertAlmostEqual(y, bottom + (top - bottom) * time / most, delta=0.2)
                    shown = float(points[measure, side].find(SVG + "text").text)
                    self.assertAlmostEqual(shown, time, delta=0.51 if time >= 100 else 0.051 if time >= 1 else 0.0051)
                line, = (one for one in chart.iter(SVG + "path") if one.get("class") == f"{side} line")
                ends = [tuple(map(float, end)) for end in re.findall(r"[ML]([\d.]+) ([\d.]+)", line.get("d"))]
                self.assertEqual(len(ends), len(places))
                for end, place in zip(ends, places):
                    self.assertAlmostEqual(end[0], place[0], delta=0.2)
                    self.assertAlmostEqual(end[1], place[1], delta=0.2)
        self.assertEqual(root.find(SVG + "title").get("id"), "what")
        self.assertEqual(root.find(SVG + "desc").get("id"), "how")
        self.assertNotIn(b"href", svg)

    def test_stored(self):
        """The picture in the documents is this one."""
        done = run(DOCUMENT)
        self.assertEqual((done.returncode, done.stderr), (0, b""))
        stored = (ROOT / "docs" / "growth.svg").read_bytes()
        self.assertEqual(done.stdout, stored, "tools/growth > docs/growth.svg draws it anew")
        self.assertEqual(run().stdout, stored)
        self.check(DOCUMENT.read_text(encoding="utf-8"), stored)

    def test_other_times(self):
        """Times of other sizes, equal ones and none at all."""
        text = DOCUMENT.read_text(encoding="utf-8")
        for number, times in enumerate((("1.0", "1.0"), ("0.0", "0.0"), ("987,654.3", "0.1"), ("100,000", "99,999.9"))):
            for measure in (ROUNDS[number], LISTINGS[number % 3], FORECASTS[number % 3]):
                text = text.replace(row(text, measure)[0], f"| {measure} | {times[0]} | {times[1]} | |\n")
            done = run_on(text)
            self.assertEqual((done.returncode, done.stderr), (0, b""))
            self.check(text, done.stdout)
        for measure in ROUNDS:
            text = text.replace(row(text, measure)[0], f"| {measure} | 0.0 | 0.0 | |\n")
        self.check(text, run_on(text).stdout)


class Refusals(unittest.TestCase):
    """What cannot be drawn: a message on standard error, nothing on standard output, a status that is not 0."""

    def check(self, text, words):
        done = run_on(text)
        self.assertNotEqual(done.returncode, 0)
        self.assertEqual(done.stdout, b"")
        self.assertRegex(done.stderr.decode(), "^growth: .*" + re.escape(words))
        self.assertEqual(done.stderr.count(b"\n"), 1)

    def test_missing_rows(self):
        text = DOCUMENT.read_text(encoding="utf-8")
        for measure in {*ROUNDS, *LISTINGS, *FORECASTS, *LOGS}:
            self.check(text.replace(row(text, measure)[0], ""), f"there is no row '{measure}' in a table")

    def test_other_tables(self):
        """A row counts only under the header with the units."""
        text = DOCUMENT.read_text(encoding="utf-8")
        self.check(text.replace("| Project, ns |", "| Project, ms |"), f"there is no row '{ROUNDS[0]}'")

    def test_times(self):
        text = DOCUMENT.read_text(encoding="utf-8")
        for project, peer, words in (
                ("1.0", "", "the peer's time is '', not a number"), ("fast", "1.0", "the project's time is 'fast'"),
                ("-1.0", "1.0", "the project's time is -1.0"), ("1.0", "inf", "the peer's time is inf")):
            changed = text.replace(row(text, ROUNDS[1])[0], f"| {ROUNDS[1]} | {project} | {peer} | |\n")
            self.check(changed, f"row '{ROUNDS[1]}': {words}")

    def test_files(self):
        done = run("/nowhere/document")
        self.assertEqual((done.returncode, done.stdout), (1, b""))
        self.assertIn(b"growth: cannot read /nowhere/document", done.stderr)
        self.assertEqual((run("a", "b").returncode, run("a", "b").stdout), (2, b""))


if __name__ == "__main__":
    unittest.main()
