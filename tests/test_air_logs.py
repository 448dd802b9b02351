"""A8 by the model: logs of one listing fit, and the forms that document 02 names."""

import random
import unittest

from library import listings
from model import air_logs, listing
from model.refusals import BAD_LISTING, BAD_NUMBER, DONE

# The listing that document 01 prints.
LISTING = b"""\
     2 E  0  0 0        0        0
     2 D  0  0 2        7      100
     2 E  1  1 0        0        0
     2 D  1  1 1        0        0
     3 D  0  1 1        0        0
     3 A  0  0 2        7      100
     3 D  1  0 2        7      100
     3 A  1  0 2        7      100
END
"""


def refusal(text):
    return air_logs.compare(text, 0, text, 0)[0]


class Fit(unittest.TestCase):
    def test_logs_of_one_listing(self):
        """They never differ; and the runs are such that all three other answers come, with logs that are not empty."""
        met = set()
        for seed in range(40):
            rng = random.Random(f"air logs {seed}")
            text = listing.listing(listings.script(rng, rng.randint(1, 5), rng.randrange(25)))
            lines = air_logs.read_listing(text)
            self.assertIsNotNone(lines, text)
            logs = [air_logs.air_log(lines, station) for station in range(16)]
            for first in logs:
                for second in logs:
                    answer, _ = air_logs.compared(first, second)
                    self.assertNotEqual(answer, air_logs.DIFFERENT, text)
                    met.add((answer, bool(first), bool(second)))
        self.assertLessEqual({(air_logs.EQUAL, True, True), (air_logs.FIRST_BEGINS, True, True),
                              (air_logs.SECOND_BEGINS, True, True), (air_logs.EQUAL, False, False)}, met)

    def test_document_01(self):
        self.assertEqual(air_logs.compare(LISTING, 0, LISTING, 1), (DONE, air_logs.EQUAL, 0))
        self.assertEqual(air_logs.compare(LISTING, 0, LISTING, 2), (DONE, air_logs.SECOND_BEGINS, 0))
        self.assertEqual(air_logs.compare(LISTING, 15, LISTING, 0), (DONE, air_logs.FIRST_BEGINS, 0))
        other = LISTING.replace(b"A  1  0 2        7      100", b"A  1  0 2        7      101")
        self.assertEqual(air_logs.compare(LISTING, 0, other, 1), (DONE, air_logs.DIFFERENT, 1))

    def test_rounds_may_differ(self):
        later = LISTING.replace(b"     3 A", b"999999 A")
        self.assertEqual(air_logs.compare(LISTING, 0, later, 1), (DONE, air_logs.EQUAL, 0))


class Forms(unittest.TestCase):
    def test_numbers_come_first(self):
        self.assertEqual(air_logs.compare(b"", 16, b"", 0)[0], BAD_NUMBER)
        self.assertEqual(air_logs.compare(b"", 0, LISTING, 16)[0], BAD_NUMBER)
        self.assertEqual(air_logs.compare(b"", 0, LISTING, 15)[0], BAD_LISTING)

    def test_last_line(self):
        self.assertEqual(refusal(b"END\n"), DONE)
        for text in (b"", b"END", b"END\n\n", b"END\nEND\n", LISTING[:-4], LISTING[:-1], LISTING + b" ", b"\nEND\n",
                     b"end\n"):
            self.assertEqual(refusal(text), BAD_LISTING, text)

    def test_values_are_not_judged(self):
        self.assertEqual(refusal(b"999999 X99999999999999999-99999999\nEND\n"), DONE)
        self.assertEqual(refusal(b"     0 A  0  0 9        0       -1\nEND\n"), DONE)

    def test_fields(self):
        good = b"     1 A  0  0 4        7      -25\nEND\n"
        self.assertEqual(refusal(good), DONE)
        for right, wrong in ((b"      -25", b"       -0"), (b"      -25", b"      025"), (b"      -25", b"         "),
                             (b"      -25", b"     - 25"), (b"      -25", b"-25      "), (b"        7", b"       -7"),
                             (b"     1 ", b"    -1 "), (b"     1 ", b"     1\t"), (b" 4 ", b"4  "), (b"A", b"N"),
                             (b"-25\n", b"-25\r\n"), (b"-25\n", b"-25")):
            self.assertEqual(good.count(right), 1, right)
            self.assertEqual(refusal(good.replace(right, wrong)), BAD_LISTING, wrong)


if __name__ == "__main__":
    unittest.main()
