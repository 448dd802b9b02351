"""A12 by the model: when a bulletin is shown, by relays alone, and that a group does not notice bulletins."""

import random
import unittest

from model import bulletins, group, states
from model.bulletins import Bulletin
from model.links import Links
from model.records import PLACES

SIZES = (1, 2, 3, 4, 5)
LARGE = 20      # each so many runs one is of sixteen stations


def random_masks(rng):
    share = rng.choice((0.05, 0.2, 0.6))
    return tuple(sum(1 << j for j in range(PLACES) if rng.random() < share) for _ in range(PLACES))


class Run:
    """A list of issues, posts and rounds from fresh, drawn from a seed."""

    def __init__(self, seed, with_issues=True):
        rng = random.Random(f"bulletins {seed}")
        self.n = rng.choice(SIZES) if seed % LARGE else PLACES
        self.group, self.state = group.fresh(self.n).group, bulletins.fresh(self.n)[1]
        self.log, self.reports, self.issued, self.shown, self.refusals = [], [], {}, {}, set()
        for _ in range(rng.randrange(40)):
            self.step(rng, with_issues)

    def step(self, rng, with_issues):
        choice = rng.random()
        if choice < 0.35:
            tag, event = rng.choice((0, 1, 2, 3, 2 ** 32 - 1)), rng.choice((0, 1, 7, 99_999_999))
            one = Bulletin(rng.randrange(self.n + 1), tag, event)
            if with_issues:
                self.issue(one)
        elif choice < 0.6:
            self.group = group.post(self.group, rng.randrange(self.n), states.random_edit(rng)).group
        else:
            self.round(random_masks(rng))

    def issue(self, one):
        refusal, self.state = bulletins.issue(self.state, one)
        self.refusals.add(refusal)
        if not refusal:
            self.issued[one] = len(self.log)
            self.shown.setdefault((one.issuer, one), []).append(len(self.log))

    def round(self, masks):
        done, self.state, shown = bulletins.round_of(self.group, self.state, masks)
        self.refusals.add(done.refusal)
        self.group = done.group
        self.log.append(masks)
        self.reports.append(done.reports)
        for place, some in enumerate(shown):
            assert list(some) == sorted(some, key=lambda one: (one.issuer, one.tag))
            for one in some:
                self.shown.setdefault((place, one), []).append(len(self.log))


class Shown(unittest.TestCase):
    def test_first_round_of_a_relay(self):
        """Each station shows each bulletin in the first round by which a relay has come; its issuer when issued."""
        later = 0
        for seed in range(160):
            run = Run(seed)
            log = [[mask & (1 << run.n) - 1 for mask in masks[:run.n]] for masks in run.log]
            links = Links(run.n, log)
            expected = {}
            for one, after in run.issued.items():
                expected[one.issuer, one] = [after]
                for place, u in links.first_arrivals(one.issuer, after).items():
                    if place != one.issuer:
                        expected[place, one] = [u]
                        later += u > after + 1
            self.assertEqual(run.shown, expected, seed)
            self.assertTrue(bulletins.in_limits(run.state))
            self.assertNotIn(2, run.refusals)
        self.assertGreater(later, 100)

    def test_group_does_not_notice(self):
        for seed in range(80):
            with_issues, without = Run(seed), Run(seed, with_issues=False)
            self.assertEqual((with_issues.group, with_issues.reports), (without.group, without.reports), seed)


if __name__ == "__main__":
    unittest.main()
