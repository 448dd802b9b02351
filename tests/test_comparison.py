"""What the comparison of the listing program with the model says and keeps."""

import pathlib
import tempfile
import unittest
from unittest import mock

from drawn import frames
from model import listing
from model.malformed import GOOD_ROUND, N2
from program import compare, small
from program.command import Finished

SCRIPT = N2 + GOOD_ROUND * 3
RIGHT = listing.listing(SCRIPT)


class Difference(unittest.TestCase):
    def said(self, output, fault=""):
        return compare.difference(RIGHT, Finished(output, fault))

    def test_a_letter(self):
        self.assertEqual(self.said(RIGHT.replace(b"2 E  1", b"2 D  1", 1)),
                         "line 3 of the listing, column 8: the model has '     2 E  1  1 0        0        0', "
                         "the program '     2 D  1  1 0        0        0'")

    def test_columns(self):
        self.assertIn("line 1 of the listing, columns 6 to 11:", self.said(RIGHT.replace(b"2 E  0", b"3 E  1", 1)))

    def test_the_end(self):
        number = RIGHT.count(b"\n")
        self.assertIn(f"line {number} of the listing: the model has 'END', the program ''", self.said(RIGHT[:-4]))
        self.assertIn(f"line {number + 1} of the listing: the model has '', the program no such line", self.said(RIGHT[:-1]))
        self.assertIn(f"line {number + 1} of the listing: the model has '', the program 'END'", self.said(RIGHT + b"END\n"))

    def test_bytes_of_any_kind(self):
        self.assertIn(r"the program 'END\r'", self.said(RIGHT[:-1] + b"\r\n"))
        self.assertIn(r"'\x00\xff", self.said(b"\x00\xff" + RIGHT))
        self.assertIn(".. (1000000 bytes)", self.said(b"x" * 1_000_000 + b"\n"))

    def test_how_it_ended(self):
        self.assertEqual(self.said(RIGHT, "the program ended with status 3"), "the listing is right, but the program ended with status 3")
        self.assertTrue(self.said(b"", "the program was ended by signal 11").endswith("; the program was ended by signal 11"))


class Kept(unittest.TestCase):
    def test_script(self):
        with tempfile.TemporaryDirectory() as folder, mock.patch.object(compare, "FAILURES", pathlib.Path(folder, "failures")), \
                mock.patch.object(compare.command, "ROOT", pathlib.Path(folder)), mock.patch("builtins.print") as said:
            comparison = compare.Comparison("check-listing", "none")
            comparison.listing("Name, of a script", SCRIPT, run=lambda program, script: Finished(b"", ""))
            self.assertEqual((comparison.passed, comparison.failed), (0, 1))
            self.assertEqual(pathlib.Path(folder, "failures", "name-of-a-script.script").read_bytes(), SCRIPT)
            self.assertIn("check-listing:     the script is kept: tests/check-listing failures/name-of-a-script.script", str(said.mock_calls))


class Small(unittest.TestCase):
    def test_every_choice(self):
        """As many choices as links to the power of two, all of them different."""
        for n, choices in ((1, 1), (2, 4), (3, 64)):
            self.assertEqual(len(set(small.Small(n, 1).choices())), choices)
        scripts = [script for _, script in small.Small(2, 1).up_to(3)]
        self.assertEqual(len(scripts), 1 + 4 + 16 + 64)

    def test_edits_travel(self):
        """In five rounds of two stations each airs edits of both, and in two rounds of three an edit starts."""
        aired = {tuple(line[8:14].split()) for _, script in list(small.Small(2, 1).scripts(5))[-64:]
                 for line in listing.listing(script).splitlines() if line[7:8] == b"A"}
        self.assertEqual(aired, {(b"0", b"0"), (b"0", b"1"), (b"1", b"0"), (b"1", b"1")})
        script = list(small.Small(3, 1).scripts(2))[-1][1]
        self.assertIn(b"     2 D  0  0 2", listing.listing(script))


class Frames(unittest.TestCase):
    def test_every_answer(self):
        """The drawn frames come to every answer, and the same seed draws the same."""
        drawn = frames.cases("seed", 400)
        self.assertEqual({frames.frames.check_frame(*case) for case in drawn}, {0, 1, 5, 6, 7, 17})
        self.assertEqual(drawn, frames.cases("seed", 400))


if __name__ == "__main__":
    unittest.main()
