"""The drawn cases of request A4, by the model: each comes to its refusal, and a refused call changes nothing."""

import random
import unittest

from drawn import conflicts
from model import group, hearing
from model.bodies import EDITIONS
from model.station import in_limits


class Drawn(unittest.TestCase):
    def test_stations(self):
        met, names = set(), set()
        for name, s, frame, refusal in conflicts.station_cases(random.Random("stations"), 40):
            with self.subTest(name):
                self.assertTrue(in_limits(s))
                heard = hearing.hear(s, frame)
                self.assertEqual(heard.refusal, refusal)
                if refusal:
                    self.assertEqual((heard.station, heard.taken), (s, 0))
                met.add((s.edition, refusal))
                names.add(name)
        self.assertEqual(met, {(edition, refusal) for edition in EDITIONS for refusal in (0, 8, 14)})
        self.assertLess({f"another {field}" for field in ("kind", "event", "argument", "channel")}, names)

    def test_rounds(self):
        met = set()
        for name, given, masks, refusal in conflicts.group_cases(random.Random("rounds"), 40):
            with self.subTest(name):
                self.assertTrue(group.group_in_limits(given))
                done = group.round_of(given, masks)
                self.assertEqual(done.refusal, refusal)
                if refusal:
                    self.assertEqual(done.group, given)
                met.add((given[0].edition, refusal))
        self.assertEqual(met, {(edition, refusal) for edition in EDITIONS for refusal in (0, 8, 14)})


if __name__ == "__main__":
    unittest.main()
