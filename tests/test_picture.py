"""The picture of a run (tools/picture) against the script and the model's listing.

Each line of the listing must have its mark, and each hearing its link, in the right column and row.
"""

import functools
import pathlib
import re
import subprocess
import sys
import tempfile
import unittest
from typing import NamedTuple
from xml.etree import ElementTree

from model import lines, listing, scripts
from model.group import heard_stations

ROOT = pathlib.Path(__file__).resolve().parent.parent
PICTURE = ROOT / "tools" / "picture"
SVG = "{http://www.w3.org/2000/svg}"

TWO = (ROOT / "examples" / "two-stations.script").read_bytes()
FIVE = (ROOT / "examples" / "five-stations.script").read_bytes()
KILLED = (ROOT / "examples" / "killed-station.script").read_bytes()
AWAY = ROOT / "examples" / "killed-station.away"


model_listing = functools.cache(listing.listing)


def run(script, text, *options):
    """The finished command on a script and a listing, both bytes."""
    with tempfile.TemporaryDirectory() as folder:
        names = pathlib.Path(folder, "s"), pathlib.Path(folder, "l")
        for name, data in zip(names, (script, text)):
            name.write_bytes(data)
        return subprocess.run([sys.executable, str(PICTURE), *map(str, names), *options],
                              capture_output=True, check=False)


class Listed(NamedTuple):
    """One line of a listing: what a mark must say."""
    kind: str
    round: int
    station: int
    source: int
    edit: bool


def listed(text):
    """Line number -> what stands there."""
    found = {}
    for number, line in enumerate(text.decode().splitlines()[:-1], 1):
        rounds, letter, station, source, kind = (line[:6], line[7], line[8:11], line[11:14], line[14:16])
        own = letter == "D" and station == source
        name = "started" if own else {"D": "taken", "A": "aired", "E": "ended", "X": "refused"}[letter]
        found[number] = Listed(name, int(rounds), int(station), int(source), int(kind) > 1)
    return found


def heard(script):
    """Every hearing of a script as (round, hearer, heard)."""
    n, number, found = None, 0, set()
    for line in listing.split_lines(script):
        command = None if line is None else lines.read_line(line, n)
        if isinstance(command, lines.SizeLine):
            n = command.n
        elif isinstance(command, lines.RoundLine):
            number += 1
            found |= {(number, place, sender) for place in range(n)
                      for sender in heard_stations(command.masks[place], place, n)}
        elif command is None:
            break
    return found


def latest_starts(text, n, before):
    """What each of n stations last started before a round: empty, neutral or edit."""
    kinds = ["empty"] * n
    for line in listed(text).values():
        if line.round < before and line.kind == "ended":
            kinds[line.station] = "empty"
        if line.round < before and line.kind == "started":
            kinds[line.station] = "edit" if line.edit else "neutral"
    return kinds


class Drawn:
    """A picture, read back from its bytes."""

    def __init__(self, svg):
        self.root = ElementTree.fromstring(svg)
        self.by_round = {int(one.get("data-round")): tuple(float(one.get(name)) for name in ("x", "y", "width", "height"))
                         for one in self.of("rect") if one.get("class", "").startswith("column")}
        self.marks = [one for one in self.of("g") if one.get("data-lines")]
        self.stations = [(float(one.get("y")) - 4, int(one.get("data-station")))
                         for one in self.of("text") if one.get("class") == "station"]
        self.station_at = functools.cache(self.nearest_station)

    def of(self, name):
        return self.root.iter(SVG + name)

    def round_at(self, x, y):
        """The round whose column holds a point."""
        hit = [number for number, (left, top, width, height) in self.by_round.items()
               if 0 <= x - left <= width and 0 <= y - top <= height]
        return min(hit)  # two columns share an edge

    def nearest_station(self, y):
        """The station whose line is nearest to a height."""
        return min(self.stations, key=lambda one: abs(one[0] - y))[1]

    def running_at_the_left(self):
        """For each station the kind of the broadcast that comes in at the left of the first strip."""
        left, top, _, height = self.by_round[min(self.by_round)]
        found = {}
        for path in self.of("path"):
            x, y = map(float, re.match(r"M([\d.]+) (-?[\d.]+)", path.get("d")).groups())
            if path.get("class", "").startswith("broadcast ") and x == left and top <= y <= top + height:
                found[self.station_at(y)] = path.get("class").split()[1]
        return [found[station] for station in sorted(found)]

    def links(self):
        """(round, hearer, heard) of every link, by the places of its ends."""
        for path in self.of("path"):
            if path.get("class") != "hears" or path.get("data-round") is None:
                continue
            left = self.by_round[int(path.get("data-round"))][0]
            for x0, y0, x1, y1 in re.findall(r"M([\d.]+) ([\d.]+)L([\d.]+) ([\d.]+)", path.get("d")):
                assert float(x0) == left, path.get("d")
                assert self.round_at(float(x1), float(y1)) == int(path.get("data-round"))
                assert self.station_at(float(y1)) == int(path.get("data-station"))
                yield int(path.get("data-round")), self.station_at(float(y1)), self.station_at(float(y0))


def corner(mark):
    """A point of a mark."""
    rect, path = mark.find(SVG + "rect"), mark.find(SVG + "path")
    if rect is not None:
        return float(rect.get("x")), float(rect.get("y"))
    return tuple(map(float, re.match(r"M([\d.]+) ([\d.]+)", path.get("d")).groups()))


class Pictures(unittest.TestCase):
    def check(self, script, *options, first=0, last=10 ** 6):
        """A whole picture against the listing and the script, in the window from first to last."""
        text = model_listing(script)
        done = run(script, text, *options)
        self.assertEqual((done.returncode, done.stderr), (0, b""))
        drawn = Drawn(done.stdout)
        self.check_marks(drawn, {number: line for number, line in listed(text).items() if first <= line.round <= last})
        links = list(drawn.links())
        self.assertEqual(len(links), len(set(links)))
        self.assertEqual(set(links), {one for one in heard(script) if first <= one[0] <= last})
        self.check_manners(done.stdout, drawn)
        return drawn

    def check_marks(self, drawn, expected):
        """Each line has one mark; what it says, and where it stands, is the line's."""
        found = {}
        for mark in drawn.marks:
            kind, _, edit = mark.get("class").partition(" ")
            said = Listed(kind, *(int(mark.get(f"data-{name}")) for name in ("round", "station", "source")), edit == "edit")
            x, y = corner(mark)
            self.assertEqual((drawn.round_at(x, y), drawn.station_at(y)), (said.round, said.station), mark.attrib)
            words = mark.find(SVG + "title").text
            self.assertIn(f"station {said.station}" if said.source != 11 or kind != "refused" else "malformed", words)
            shown = mark.find(SVG + "text")
            if kind in ("taken", "aired", "refused"):
                self.assertEqual(re.match(r"\d+", shown.text)[0], str(said.source))
            for number in mark.get("data-lines").split():
                self.assertNotIn(int(number), found)
                found[int(number)] = said
        self.assertEqual(found, expected)

    def check_manners(self, svg, drawn):
        """Self-contained, with a title and a description for those who listen."""
        self.assertEqual(drawn.root.find(SVG + "title").get("id"), "what")
        self.assertEqual(drawn.root.find(SVG + "desc").get("id"), "how")
        self.assertNotIn(b"href", svg)
        self.assertEqual(svg.count(b"http"), 1)
        width = float(drawn.root.get("width"))
        for left, _, wide, _ in drawn.by_round.values():
            self.assertLessEqual(left + wide, width)

    def test_two_stations(self):
        drawn = self.check(TWO)
        self.assertEqual(sorted(drawn.by_round), [0, 1, 2, 3])
        self.assertIn("round 3: station 1 airs insert of event 7 at frame 100 of station 0",
                      [mark.find(SVG + "title").text for mark in drawn.marks])

    def test_five_stations(self):
        """The picture in the documents is this one."""
        self.check(FIVE)
        self.assertEqual(run(FIVE, model_listing(FIVE)).stdout, (ROOT / "docs" / "five-stations.svg").read_bytes())

    def test_killed_station(self):
        """The picture in the documents is this one; the absence of station 2 covers its row in rounds 5 to 7."""
        drawn = self.check(KILLED, "--rounds", "1-14", "--away", str(AWAY), last=14)
        svg = run(KILLED, model_listing(KILLED), "--rounds", "1-14", "--away", str(AWAY)).stdout
        self.assertEqual(svg, (ROOT / "docs" / "killed-station.svg").read_bytes())
        absence, = (group for group in drawn.root.iter(SVG + "g") if group.get("data-first"))
        self.assertEqual([int(absence.get(f"data-{name}")) for name in ("station", "first", "last")], [2, 5, 7])
        band = absence.find(SVG + "rect")
        left, right = float(band.get("x")), float(band.get("x")) + float(band.get("width"))
        self.assertAlmostEqual(left, drawn.by_round[5][0], delta=0.2)
        self.assertAlmostEqual(right, drawn.by_round[7][0] + drawn.by_round[7][2], delta=0.2)

    def test_sixteen_stations_and_sixty_rounds(self):
        drawn = self.check(scripts.seeded_script(1, scripts.Shape(16, 60, 0.15, 2.0)))
        self.assertLess(float(drawn.root.get("width")), 2100)

    def test_random_scripts(self):
        for seed in range(0, 48, 5):
            with self.subTest(seed):
                self.check(scripts.seeded_script(seed))

    def test_window(self):
        script = scripts.seeded_script(7, scripts.Shape(4, 230, 0.4, 1.0))
        drawn = self.check(script, "--rounds", "100-160", first=100, last=160)
        self.assertEqual(sorted(drawn.by_round), list(range(100, 161)))
        self.assertEqual(drawn.running_at_the_left(), latest_starts(model_listing(script), 4, 100))
        self.check(script, "--rounds", "1-9", last=9)
        self.check(script, "--rounds", "225-999", first=225)
        whole = run(script, model_listing(script))
        self.assertEqual(whole.returncode, 0)
        self.assertEqual(max(Drawn(whole.stdout).by_round), 200)
        self.assertIn(b"drawing the first 200", whole.stderr)

    def test_scripts_that_stop(self):
        """A malformed line is shown where the reading stops."""
        for rest in (b"\n", b"R", b"Q        2        1\n", TWO, b"R        2    65536\n", b"R       02        1\n"):
            self.check(TWO + rest)

    def test_no_rounds(self):
        self.check(b"N       16\n")
        self.check(b"N        3\n" + b"P        9        2        1        0\n" * 3)

    def test_many_alike_refusals_share_a_mark(self):
        posts = b"P        1        3        9        0\n" * 40
        drawn = self.check(TWO + posts)
        self.assertEqual([mark.find(SVG + "text").text for mark in drawn.marks if "refused" in mark.get("class")], ["3 \u00b78"])

    def test_file_and_standard_input(self):
        text = model_listing(TWO)
        with tempfile.TemporaryDirectory() as folder:
            script, out = pathlib.Path(folder, "s"), pathlib.Path(folder, "o")
            script.write_bytes(TWO)
            subprocess.run([sys.executable, str(PICTURE), str(script), "-", "-o", str(out)], input=text, check=True)
            self.assertEqual(out.read_bytes(), run(TWO, text).stdout)


class Refusals(unittest.TestCase):
    """What cannot be drawn: a message on standard error, nothing on standard output, a status that is not 0."""

    def check(self, script, text, words, *options):
        done = run(script, text, *options)
        self.assertNotEqual(done.returncode, 0)
        self.assertEqual(done.stdout, b"")
        self.assertRegex(done.stderr.decode(), "^picture: .*" + words)
        self.assertEqual(done.stderr.count(b"\n"), 1)

    def test_scripts(self):
        for script in (b"", b"N        0\n", b"N       17\n", b"N       02\n", b"N        2", TWO[11:], b"\xff\x00\n"):
            self.check(script, b"     0 X  0 11 0        0        0\nEND\n", "script line 1: not 'N'")

    def test_listings(self):
        good = model_listing(TWO)
        for text, words in (
                (b"", "does not close with the line END"), (good[:-4], "does not close with the line END"),
                (good[:-1], "listing line 9: not of the listing's form"), (good + b"\n", "listing line 10: there is more after the line END"),
                (good[1:], "listing line 1: not of the listing's form"),
                (good.replace(b" E ", b" F "), "listing line 1: not of the listing's form"),
                (good.replace(b"100", b"1 0"), "listing line 2: not of the listing's form"),
                (good.replace(b"     3 D  1", b"     4 D  1"), "listing line 7: round 4 after round 3"),
                (good.replace(b"     3 A  0", b"     1 A  0"), "listing line 6: round 1 after round 3"),
                (good.replace(b"D  1  0", b"D  1  2"), "listing line 7: a station of 2 or more"),
                (good.replace(b"     2 E  0", b"     0 E  0"), "listing line 1: only a refusal"),
                (good.replace(b"2 D  0  0 2", b"2 D  0  0 5"), "listing line 2: there is no kind 5"),
                (good.replace(b"2 E  0  0", b"2 X  0  2"), "listing line 1: no line of a script is refused with 2"),
                (good.replace(b"     2 E  0  0", b"     2 X  0 11"), "listing line 2: there is more after a malformed line"),
                (good.replace(b"END", b"     3 X  0 11 0        0        0\nEND"), "no line of this one is malformed")):
            self.check(TWO, text, words)
        self.check(TWO + b"\n", good, "line 6 of this one is malformed")

    def test_options(self):
        for window in ("3", "3-", "a-b", "3-2", "-1-2"):
            self.check(TWO, model_listing(TWO), "not two rounds", f"--rounds={window}")
        self.check(TWO, model_listing(TWO), "the script has 3 rounds", "--rounds", "4-5")
        self.check(TWO, model_listing(TWO), "cannot write", "-o", "/nowhere/at/all")

    def test_absences(self):
        for text in ("2 1 1\n", "0 0 1\n", "0 1\n", "0 1 1", "0 1 1 1\n", "a 1 1\n", "0 -1 1\n"):
            with tempfile.TemporaryDirectory() as folder:
                away = pathlib.Path(folder, "away")
                away.write_text("1 2 3\n" + text, encoding="ascii")
                self.check(TWO, model_listing(TWO), "--away line 2: not a station below 2 and two rounds", "--away", str(away))

    def test_files(self):
        done = subprocess.run([sys.executable, str(PICTURE), "/nowhere/script", "-"], input=b"", capture_output=True, check=False)
        self.assertEqual((done.returncode, done.stdout), (1, b""))
        self.assertIn(b"picture: cannot read /nowhere/script", done.stderr)


if __name__ == "__main__":
    unittest.main()
