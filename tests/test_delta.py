"""Delta of a plan (tools/relay/delta.py) against its definition, relay by relay."""

import random
import unittest
from array import array

from library import logs
from model.forecast import rounds_of
from model.links import Links
from relay_command import ROOT  # noqa: F401: puts tools on the path

from relay import delta


def holds(links, first, length):
    """After every round from the first on that leaves room every two stations have a relay within this length."""
    return all(links.relay_by(a, t, b, t + length) for t in range(first, len(links.log) - length + 1)
               for a in range(links.n) for b in range(links.n) if a != b)


def least(n, log, first):
    """The least length that holds and has room, or None."""
    links = Links(n, rounds_of(log, n))
    return next((length for length in range(1, len(links.log) - first + 1) if holds(links, first, length)), None)


def ring(n, rounds):
    """Each station hears the one after it, in every round."""
    return array("H", [1 << (i + 1) % n for _ in range(rounds) for i in range(n)])


class Delta(unittest.TestCase):
    def test_every_small_log(self):
        """All logs of one station with up to 3 rounds, of two with up to 4 and of three with one, from every round."""
        rng = random.Random("every")
        for n, most in ((1, 3), (2, 4), (3, 1)):
            for rounds in range(most + 1):
                for log in logs.every_log(rng, n, rounds):
                    for first in range(rounds + 1):
                        self.assertEqual(delta.least(n, log, first), least(n, log, first), (n, list(log), first))

    def test_drawn_logs(self):
        rng, met = random.Random("delta"), set()
        for _ in range(120):
            n, rounds = rng.randint(2, 7), rng.randrange(40)
            log = logs.random_log(rng, n, rounds)
            first = rng.randint(0, rounds)
            found = delta.least(n, log, first)
            met.add(found)
            self.assertEqual(found, least(n, log, first), (n, list(log), first))
        self.assertGreater(len(met), 10)
        self.assertIn(None, met)

    def test_known(self):
        self.assertEqual(delta.least(16, logs.full_mesh(16, 2_048), 0), 1)
        self.assertEqual(delta.least(16, ring(16, 2_048), 0), 15)
        self.assertEqual(delta.least(16, ring(16, 2_048), 2_033), 15)   # just room
        self.assertIsNone(delta.least(16, ring(16, 2_048), 2_034))
        self.assertIsNone(delta.least(16, array("H", [0] * 16 * 2_048), 0))
        self.assertEqual(delta.least(1, array("H", [0]), 0), 1)
        self.assertIsNone(delta.least(1, array("H"), 0))

    def test_first_round_counts(self):
        """A long silence delays what begins before it, and nothing after."""
        log = logs.full_mesh(3, 10) + array("H", [0] * 3 * 20) + logs.full_mesh(3, 10)
        self.assertEqual(delta.least(3, log, 0), 21)
        self.assertEqual(delta.least(3, log, 10), 21)
        self.assertEqual(delta.least(3, log, 25), 6)
        self.assertEqual(delta.least(3, log, 30), 1)

    def test_library_agrees(self):
        """With Delta, and with no other number."""
        rng, met = random.Random("library"), set()
        for _ in range(60):
            n, rounds = rng.randint(1, 9), rng.randrange(30)
            log = logs.random_log(rng, n, rounds)
            first = rng.randint(0, rounds)
            found = delta.least(n, log, first)
            met.add(found is None)
            self.assertIsNone(delta.objection(n, log, first, found), (n, list(log), first))
            for other in {None, 1, (found or 1) - 1, (found or 0) + 1, rounds - first} - {0, found}:
                if other is None or other <= rounds - first:
                    self.assertIsNotNone(delta.objection(n, log, first, other), (n, list(log), first, other))
        self.assertEqual(met, {False, True})
        self.assertIsNone(delta.objection(16, ring(16, 300), 0, 15))
        self.assertEqual(delta.objection(16, ring(16, 300), 0, 14), "after round 0 no relay from 15 to 0 arrives within 14 rounds")
        self.assertEqual(delta.objection(16, ring(16, 300), 0, 16), "fewer rounds would do")

    def test_bound(self):
        """The formula, which the screen does not show before it is proved."""
        self.assertEqual(delta.on_air_by(0, 0, 1, False), 7)
        self.assertEqual(delta.on_air_by(5, 2, 3, False), 5 + 3 * 13)
        self.assertEqual(delta.on_air_by(0, 0, 1, True), 10)
        self.assertEqual(delta.on_air_by(5, 2, 3, True), 5 + 3 * 22)


if __name__ == "__main__":
    unittest.main()
