"""A10 by the model: ends under a merged log come no later; rows may."""

import random
import unittest

from library import logs
from model import forecast, group, merge
from model.links import Links
from relay_command import ROOT

from relay import plans  # from tools, which relay_command puts on the path

# A run of three stations, and the same with one hearing more: in round 3 station 1 hears 0.
FEWER = ((0, 5, 1), (6, 0, 0), (0, 0, 1), (2, 4, 0), (4, 0, 2), (4, 0, 0), (0, 1, 1), (0, 0, 2))
MORE = FEWER[:2] + ((0, 1, 1),) + FEWER[3:]


def ends(log, n):
    links = Links(n, forecast.rounds_of(log, n))
    return [forecast.end_rounds(links, s) for s in range(n)]


def aired_rounds(log, station):
    """The rounds in which a station of three airs a row, from fresh and without posts."""
    state, found = group.fresh(3).group, []
    for u, masks in enumerate(log, 1):
        _, state, reports = group.round_of(state, masks + (0,) * 13)
        if reports[station].aired:
            found.append(u)
    return found


class Ends(unittest.TestCase):
    def test_no_later(self):
        earlier = 0
        for seed in range(400):
            rng = random.Random(f"merge {seed}")
            n = rng.randint(1, 5)
            first, second = (logs.random_log(rng, n, rng.randrange(14)) for _ in range(2))
            together = ends(merge.merged(first, second, n), n)
            for alone in (ends(first, n), ends(second, n)):
                for s in range(n):
                    self.assertGreaterEqual(len(together[s]), len(alone[s]))
                    self.assertTrue(all(one <= two for one, two in zip(together[s], alone[s])), (n, first, second))
                    earlier += together[s] != alone[s]
        self.assertGreater(earlier, 200)


class Rows(unittest.TestCase):
    def test_not_monotone(self):
        """One hearing more, and station 2 airs its second row later: not in these rounds."""
        self.assertEqual(aired_rounds(FEWER, 2), [5, 8])
        self.assertEqual(aired_rounds(MORE, 2), [5])

    def test_the_examples_are_this_run(self):
        first, second = (plans.read(str(ROOT / "examples" / name))
                         for name in ("first-carrier.script", "second-carrier.plan"))
        self.assertEqual(forecast.rounds_of(first.log, 3), list(FEWER))
        self.assertEqual(forecast.rounds_of(merge.merged(first.log, second.log, 3), 3), list(MORE))


if __name__ == "__main__":
    unittest.main()
