"""Relays found round by round against relays as chains of hearings, tried one by one."""

import random
import unittest

from model.links import Links


def hearings(n, log):
    """All hearings of a log as (round, heard, hearer)."""
    return [(u, j, p) for u, masks in enumerate(log, 1) for p in range(n) for j in range(n)
            if p != j and masks[p] >> j & 1]


def chains(all_hearings, a, t):
    """The end and the round of arrival of every chain: a is heard first, rounds rise strictly."""
    for u, heard, hearer in all_hearings:
        if u > t and heard == a:
            yield hearer, u
            yield from chains(all_hearings, hearer, u)


def random_log(rng):
    n, density = rng.randint(1, 5), rng.choice((0.1, 0.2, 0.4))
    log = [tuple(sum(1 << j for j in range(16) if rng.random() < density) for _ in range(n))
           for _ in range(rng.randint(0, 5))]
    return n, log


class Relays(unittest.TestCase):
    def test_against_all_chains(self):
        for seed in range(150):
            n, log = random_log(random.Random(seed))
            links, all_hearings = Links(n, log), hearings(n, log)
            for a in range(n):
                for t in range(len(log) + 1):
                    arrivals = set(chains(all_hearings, a, t))
                    for b in range(n):
                        for u in range(len(log) + 1):
                            expected = any(end == b and k <= u for end, k in arrivals)
                            self.assertEqual(links.relay_by(a, t, b, u), expected,
                                             (seed, n, log, a, t, b, u))


class EndRule(unittest.TestCase):
    def test_one_station_ends_every_round(self):
        self.assertEqual(Links(1, [(0,)] * 4).end_rounds(0), [1, 2, 3, 4])

    def test_two_stations_that_hear_each_other(self):
        """There and back takes two rounds."""
        self.assertEqual(Links(2, [(2, 1)] * 6).end_rounds(0), [2, 4, 6])

    def test_one_way_never_ends(self):
        links = Links(2, [(2, 0)] * 6)
        self.assertEqual(links.end_rounds(0), [])
        self.assertEqual(links.end_rounds(1), [])

    def test_there_in_one_round_back_in_a_later_one(self):
        """Station 1 hears 0 in round 2, and 0 hears 1 in rounds 1, 2 and 5: 5 is the first after."""
        log = [(2, 0), (2, 1), (0, 0), (0, 1), (2, 0)]
        self.assertEqual(Links(2, log).end_rounds(0), [5])
        self.assertEqual(Links(2, log).end_rounds(1), [2])

    def test_news_crosses_one_link_a_round(self):
        """A ring of four: three rounds there and one back, or the other way round."""
        ring = tuple(1 << (p + 1) % 4 for p in range(4))
        self.assertEqual(Links(4, [ring] * 8).end_rounds(0), [4, 8])


if __name__ == "__main__":
    unittest.main()
