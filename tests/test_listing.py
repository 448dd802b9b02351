"""Scripts and their listings (document 01, "The relay listing")."""

import pathlib
import subprocess
import sys
import unittest
from unittest import mock

from model import listing, malformed, scripts

TESTS = pathlib.Path(__file__).resolve().parent
EXAMPLES = TESTS.parent / "examples"

TWO_STATIONS = b"""\
     2 E  0  0 0        0        0
     2 D  0  0 2        7      100
     2 E  1  1 0        0        0
     2 D  1  1 1        0        0
     3 D  0  1 1        0        0
     3 A  0  0 2        7      100
     3 D  1  0 2        7      100
     3 A  1  0 2        7      100
END
"""


def example(name):
    return (EXAMPLES / name).read_bytes()


def refusal_line(rounds, station, refusal):
    return b"%6d X%3d%3d 0        0        0\n" % (rounds, station, refusal)


class DocumentListing(unittest.TestCase):
    def test_to_the_byte(self):
        self.assertEqual(listing.listing(example("two-stations.script")), TWO_STATIONS)

    def test_program(self):
        """The program on standard input and output gives the same bytes."""
        done = subprocess.run([sys.executable, str(TESTS / "model_listing.py")],
                              input=example("two-stations.script"), stdout=subprocess.PIPE, check=True)
        self.assertEqual(done.stdout, TWO_STATIONS)


class Posts(unittest.TestCase):
    def listing_of(self, *lines, n=2):
        return listing.listing(scripts.script_line(b"N", (n,)) + b"".join(lines))

    def post(self, *numbers):
        return scripts.script_line(b"P", numbers)

    def test_accepted_posts_print_nothing(self):
        self.assertEqual(self.listing_of(), b"END\n")
        self.assertEqual(self.listing_of(self.post(1, 4, 9, -90_000)), b"END\n")
        self.assertEqual(self.listing_of(self.post(0, 2, 1, 2_699_999)), b"END\n")

    def test_refused_posts(self):
        for numbers, station, refusal in (
                ((2, 2, 1, 0), 0, 1), ((999_999_999, 2, 1, 0), 0, 1), ((256, 2, 1, 0), 0, 1),
                ((2, 9, 1, 0), 0, 1),
                ((1, 0, 0, 0), 1, 4), ((1, 1, 0, 0), 1, 4), ((1, 5, 1, 0), 1, 4),
                ((1, 258, 1, 0), 1, 4), ((1, 999_999_999, 1, 0), 1, 4),
                ((1, 4, 1, -90_001), 1, 4), ((1, 4, 1, -99_999_999), 1, 4),
                ((0, 2, 1, 2_700_000), 0, 4), ((0, 2, 999_999_999, 0), 0, 4),
                ((0, 2, 1, 999_999_999), 0, 4), ((0, 2, 1, -1), 0, 4), ((0, 3, 1, 1), 0, 4)):
            self.assertEqual(self.listing_of(self.post(*numbers)),
                             refusal_line(0, station, refusal) + b"END\n", numbers)

    def test_full_queue(self):
        """The 33rd is refused, and so is the 34th; the round before stands in the line."""
        posts = [self.post(1, 3, event, 0) for event in range(1, 35)]
        silent = scripts.script_line(b"R", (0, 0))
        self.assertEqual(self.listing_of(silent, *posts), refusal_line(1, 1, 3) * 2 + b"END\n")

    def test_last_station(self):
        self.assertEqual(self.listing_of(self.post(15, 1, 0, 0), n=16),
                         refusal_line(0, 15, 4) + b"END\n")


class Malformed(unittest.TestCase):
    def test_every_form(self):
        for name, script, rounds in malformed.malformed_scripts():
            with self.subTest(name):
                got = listing.listing(script)
                self.assertTrue(got.endswith(refusal_line(rounds, 0, 11) + b"END\n"), got)
                self.assertEqual(got.count(b"X"), 1)

    def test_what_came_before_is_kept(self):
        whole = example("two-stations.script")
        expected = TWO_STATIONS[:-4] + refusal_line(3, 0, 11) + b"END\n"
        self.assertEqual(listing.listing(whole + b"\n"), expected)
        self.assertEqual(listing.listing(whole + b"R"), expected)
        self.assertEqual(listing.listing(whole + whole), expected)

    def test_last_line_cut_anywhere(self):
        whole = example("two-stations.script")
        for length in range(len(whole)):
            part = whole[:length]
            clean = part.endswith(b"\n")
            got = listing.listing(part)
            self.assertEqual(b" 11 " in got, not clean)
            self.assertTrue(got.endswith(b"END\n"))

    def test_any_bytes(self):
        for script in (bytes(range(256)), b"\xff" * 40, b"N        2\n\x80", b"\x00"):
            self.assertEqual(listing.listing(script), refusal_line(0, 0, 11) + b"END\n")

    def test_widest_mask(self):
        script = scripts.script_line(b"N", (2,)) + scripts.script_line(b"R", (65_535, 65_535)) * 2
        self.assertEqual(listing.listing(script).count(b" E"), 2)

    def test_a_round_past_the_last(self):
        """With a smaller last round, since 999,999 take long."""
        script = scripts.script_line(b"N", (2,)) + scripts.script_line(b"R", (0, 0)) * 3
        post = scripts.script_line(b"P", (0, 1, 0, 0))
        self.assertEqual(listing.LAST_ROUND, 999_999)
        with mock.patch.object(listing, "LAST_ROUND", 3):
            self.assertEqual(listing.listing(script), b"END\n")
            self.assertEqual(listing.listing(script + post), refusal_line(3, 0, 4) + b"END\n")
            one_more = script + scripts.script_line(b"R", (0, 0)) + post
            self.assertEqual(listing.listing(one_more), refusal_line(3, 0, 11) + b"END\n")


class RandomScripts(unittest.TestCase):
    def test_form(self):
        """Every line has the listing's columns, rounds never fall, and no line is malformed."""
        for seed in range(0, 320, 13):
            lines = listing.listing(scripts.seeded_script(seed)).split(b"\n")
            self.assertEqual(lines[-2:], [b"END", b""])
            rounds = 0
            for line in lines[:-2]:
                self.assertEqual(len(line), 34)
                self.assertIn(line[6:8], (b" D", b" A", b" E", b" X"))
                self.assertNotEqual(line[6:14], b" X  0 11")
                self.assertGreaterEqual(int(line[:6]), rounds)
                rounds = int(line[:6])

    def test_five_stations(self):
        """The larger example comes to every kind of line."""
        got = listing.listing(example("five-stations.script"))
        for letter in (b" D ", b" A ", b" E ", b" X "):
            self.assertIn(letter, got)
        self.assertNotIn(b" X  0 11", got)


if __name__ == "__main__":
    unittest.main()
