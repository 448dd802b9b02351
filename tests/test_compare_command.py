"""./relay compare: its answers, its errors and its exit status, against the model."""

import os
import pathlib
import random
import re
import subprocess
import tempfile
import unittest

from library import listings
from model import air_logs, listing
from relay_command import ROOT, run

EXAMPLE = ROOT / "examples" / "evening.listing"
WORDS = ("equal\n", "first begins second: the second log goes on where the first ends\n",
         "second begins first: the first log goes on where the second ends\n")


def kept(text, station, position):
    """The line number and the text of the line with this position, by the model's reading."""
    lines = text.split(b"\n")
    found = [number for number, line in enumerate(lines[:-2])
             if air_logs.read_line(line).letter == b"A" and air_logs.read_line(line).station == station]
    return found[position - 1] + 1, lines[found[position - 1]].decode()


def expected(first, p, second, q):
    refusal, answer, position = air_logs.compare(first, p, second, q)
    assert refusal == 0
    if answer != air_logs.DIFFERENT:
        return 0, WORDS[answer], ""
    sides = zip(("standard input", "%s"), (kept(first, p, position), kept(second, q, position)))
    shown = (f"{name}, line {number}: {line}\n" for name, (number, line) in sides)
    return 3, f"different at edit {position}\n" + "".join(shown), ""


class Compare(unittest.TestCase):
    def setUp(self):
        self.folder = tempfile.TemporaryDirectory()
        self.file = pathlib.Path(self.folder.name, "second.listing")

    def tearDown(self):
        self.folder.cleanup()

    def test_answers(self):
        rng, met = random.Random("compare"), set()
        for _ in range(40):
            p, q = rng.randrange(16), rng.randrange(16)
            edits = [listings.edit(rng) for _ in range(rng.randrange(8))]
            first = listings.written(rng, edits, p)
            second = listings.written(rng, listings.changed(rng, edits) if rng.random() < 0.7 else edits, q)
            self.file.write_bytes(second)
            status, text, words = expected(first, p, second, q)
            text = text.replace("%s", str(self.file))
            self.assertEqual(run("compare", "-", str(p), self.file, str(q), given=first), (status, text, words))
            met.add(text[:5])
        self.assertEqual(met, {"equal", "first", "secon", "diffe"})

    def test_example(self):
        """It is the listing of the script beside it, and its logs fit."""
        script = ROOT / "examples" / "five-stations.script"
        self.assertEqual(EXAMPLE.read_bytes(), listing.listing(script.read_bytes()))
        for p in range(6):
            text = EXAMPLE.read_bytes()
            self.assertEqual(run("compare", EXAMPLE, "0", EXAMPLE, str(p)), expected(text, 0, text, p))

    def test_both_from_standard_input(self):
        """Two stations of one listing, which comes through a pipe or is a file."""
        text = EXAMPLE.read_bytes()
        self.assertEqual(run("compare", "-", "0", "-", "9", given=text), expected(text, 0, text, 9))
        with open(EXAMPLE, "rb") as file:
            done = subprocess.run([ROOT / "relay", "compare", "-", "0", "-", "1"], stdin=file, capture_output=True, check=False)
        self.assertEqual((done.returncode, done.stdout.decode()), expected(text, 0, text, 1)[:2])

    def test_document(self):
        """The run that docs/SCRIPTS.md shows."""
        document = (ROOT / "docs" / "SCRIPTS.md").read_text(encoding="utf-8")
        command, shown = re.search(r"(?m)^    \$ \./relay (compare .*)\n((?:    .*\n)+)", document).groups()
        status, text, words = run(*command.split(), cwd=ROOT)
        self.assertEqual((status, text, words), (3, re.sub(r"(?m)^    ", "", shown), ""))

    def refused(self, text, station="1"):
        self.file.write_bytes(text)
        status, out, words = run("compare", EXAMPLE, "0", self.file, station)
        self.assertEqual((status, out), (1, ""))
        return words.removeprefix("relay compare: ").replace(str(self.file), "F").removesuffix("\n")

    def test_faults(self):
        """The first line at fault, wherever it stands, and what is wrong with it."""
        good, end = listings.NARROW, listings.END
        number = "a number, right-justified, without leading zeros or"
        for fault, words in {
                b"": "the last line, END, is missing",
                b"END": "'END' has no line end",
                good[:-1]: f"'{good[:-1].decode()}' has no line end",
                b"END\n\n": "a byte follows END",
                b"END\nEND\n": "bytes follow END",
                b"\n" + end: "'' has 0 columns where a line has 34",
                good[1:] + end: f"'{good[1:-1].decode()}' has 33 columns where a line has 34",
                b" " + good + end: f"' {good[:-1].decode()}' has 35 columns where a line has 34",
                bytes(100): f"'{'?' * 60}'.. has 70 or more columns where a line has 34",
                good.replace(b" A", b" B") + end: "the letter is 'B'; it is A, D, E or X",
                good.replace(b" A", b"0A") + end: "column 7 is '0'; it is a space",
                b"    01" + good[6:] + end: f"the round in columns 1 to 6 is '    01'; it is {number} a minus",
                good[:16] + b"       -7" + good[25:] + end:
                    f"the event in columns 17 to 25 is '       -7'; it is {number} a minus",
                good[:25] + b"       -0" + good[34:] + end:
                    f"the argument in columns 26 to 34 is '       -0'; it is {number} minus zero"}.items():
            words = words.replace("?" * 60, "\\x00" * 60) if fault == bytes(100) else words
            for before in (0, 1, 2, 37):
                if before or not fault.startswith(b"END\n"):
                    said = f"F, line {before + 1}: {words} (refused with 16)"
                    self.assertEqual(self.refused(good * before + fault), said)

    def test_the_first_listing_is_judged_first(self):
        self.file.write_bytes(b"")
        status, _, words = run("compare", self.file, "0", "-", "0", given=b"END")
        said = f"relay compare: {self.file}, line 1: the last line, END, is missing (refused with 16)\n"
        self.assertEqual((status, words), (1, said))

    def test_stations(self):
        said = "refused with 1: a station is 0 to 15, not 16"
        self.assertEqual(self.refused(b"", "16"), said)
        self.assertEqual(self.refused(listings.END, "16"), said)
        status, _, words = run("compare", EXAMPLE, "-1", EXAMPLE, "0")
        self.assertEqual(status, 2)
        status, _, words = run("compare", EXAMPLE, "x", EXAMPLE, "0")
        self.assertEqual(status, 2)
        self.assertIn("'x' is no station number", words)

    def test_files(self):
        """A file that cannot be read; a file that is mapped stays as it is."""
        self.assertEqual(run("compare", EXAMPLE, "0", "/nowhere", "0"),
                         (2, "", "relay compare: cannot read /nowhere: No such file or directory\n"))
        text = listings.NARROW * 50 + b"?" + listings.NARROW + listings.END
        self.refused(text)
        self.assertEqual(self.file.read_bytes(), text)

    def test_large(self):
        """A file is not read into memory: one of 100 MB is compared in a process that may have 60 MB of its own."""
        lines = 3_000_000
        with open(self.file, "wb") as out:
            for _ in range(lines // 10_000):
                out.write(listings.NARROW * 10_000)
            out.write(listings.END)
        limited = ("import resource, runpy, sys; resource.setrlimit(resource.RLIMIT_DATA, (60 << 20, 60 << 20));"
                   f"sys.argv = ['relay', 'compare', {str(self.file)!r}, '1', {str(self.file)!r}, '1'];"
                   f"runpy.run_path({str(ROOT / 'relay')!r}, run_name='__main__')")
        done = subprocess.run(["python3", "-B", "-c", limited], capture_output=True, text=True, check=False,
                              env={**os.environ})
        self.assertEqual((done.returncode, done.stdout, done.stderr), (0, "equal\n", ""))


if __name__ == "__main__":
    unittest.main()
