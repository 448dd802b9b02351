"""By when accepted edits are aired everywhere, on drawn lists of calls with good links."""

import itertools
import random
import sys
import unittest

from model import delivery, replies, scripts
from model.bodies import DROP, Body
from model.lines import PostLine, RoundLine

RUNS = 160
ONE = Body(DROP, 7, 0)


def calls_of(seed):
    """Few stations and many rounds; posts of both desks, or of one, in the first half."""
    rng = random.Random(f"delivery {seed}")
    n = 1 + seed % 5
    shape = scripts.Shape(n, rng.randint(30, 150), rng.choice((0.25, 0.4, 0.6, 0.8, 1.0)),
                          rng.choice((0.1, 0.5, 1.5)), rng.choice(("random", "random", "ring", "star")))
    _, calls = scripts.seeded_desks(seed, shape)
    if seed % 3 == 0:
        calls = [call._replace(desk=0) if isinstance(call, PostLine) else call for call in calls]
    quiet = rng.choice((0.1, 0.3, 1.0)) * len(calls)
    calls = [call for at, call in enumerate(calls) if at < quiet or isinstance(call, RoundLine)]
    calls = scripts.on_one_channel(calls, scripts.seeded_edition(seed))
    return n, replies.with_bodies(calls, lambda number: ONE)


def run_of(seed):
    return delivery.run_of(*calls_of(seed), scripts.seeded_limit(seed), scripts.seeded_edition(seed))


def check_seed(seed):
    """What the run of a seed breaks, with the seed and its script; None where it holds."""
    n, calls = calls_of(seed)
    limit, edition = scripts.seeded_limit(seed), scripts.seeded_edition(seed)
    fault = delivery.first_fault(n, calls, limit, edition)
    if fault is None:
        return None
    desks = [call.desk for call in calls if isinstance(call, PostLine)]
    script = scripts.script_of(n, calls).decode("ascii")
    return f"seed {seed}, {fault}, with the limit {limit}, edition {edition}, posts of the desks {desks}\n{script}"


def nearest(seeds):
    """How near the runs of these seeds come to a bound, how many edits have one, and the seed that comes nearest."""
    found, edits = [], 0
    for seed in seeds:
        run = run_of(seed)
        edits += sum(1 for _ in delivery.bounded_posts(run))
        part = delivery.nearest(run)
        if part is not None:
            found.append((part, seed))
    return max(found), edits


class RandomRuns(unittest.TestCase):
    def test_every_sentence(self):
        for seed in range(RUNS):
            with self.subTest(seed=seed):
                fault = check_seed(seed)
                if fault is not None:
                    self.fail(fault)


class WhatTheRunsReach(unittest.TestCase):
    @classmethod
    def setUpClass(cls):
        cls.bounded, cls.editions = [], set()
        for seed in range(0, RUNS, 3):
            run = run_of(seed)
            cls.bounded += [(run.n, *post) for post in delivery.bounded_posts(run)]
            cls.editions |= {run.group[0].edition for _ in delivery.bounded_posts(run)}
        for seed in range(1, RUNS, 6):
            run = run_of(seed)
            cls.bounded += [(run.n, *post) for post in delivery.bounded_posts(run)]

    def test_many_edits_have_a_bound(self):
        self.assertGreater(len(self.bounded), 200)
        self.assertGreater(len({n for n, *_ in self.bounded}), 3)

    def test_some_stand_behind_others(self):
        self.assertGreater(max(post.behind for _, post, _, _ in self.bounded), 2)

    def test_both_desks(self):
        self.assertEqual({post.edit.desk for _, post, _, _ in self.bounded}, {0, 1})

    def test_both_editions(self):
        self.assertEqual(self.editions, {0, 1})

    def test_runs_come_near(self):
        """The bound is no more than twice or so what some edit takes."""
        self.assertGreater(max((aired - post.after) / (bound - post.after) for _, post, bound, aired in self.bounded), 0.4)


class SmallLists(unittest.TestCase):
    def test_delay(self):
        ring = [(2, 4, 1)] * 6      # 0 hears 1, 1 hears 2, 2 hears 0
        self.assertEqual(delivery.slowest(3, ring), [2, 2, 2, 2, 2, 7, 7])
        self.assertEqual(delivery.slowest(1, [(0,)] * 2), [0, 0, 0])
        self.assertTrue(delivery.has_delay([2, 2, 9, 9], 2, 0, 3))
        self.assertFalse(delivery.has_delay([2, 2, 9, 9], 2, 0, 4))
        self.assertEqual(delivery.least_bound([1] * 11, 0, 10), 10)
        self.assertIsNone(delivery.least_bound([1] * 10, 0, 10))

    def test_two_desks_at_a_station_alone(self):
        """Every list of up to five posts of the two desks, and then forty-five rounds."""
        for length in range(6):
            for choice in itertools.product((0, 1), repeat=length):
                calls = [PostLine(0, ONE, desk) for desk in choice] + [RoundLine((0,))] * 45
                self.assertIsNone(delivery.first_fault(1, calls))


if __name__ == "__main__":
    if sys.argv[1:2] == ["--nearest"]:
        (part, near), count = nearest(range(int(sys.argv[2])))
        print(f"{count} bounds tried; nearest {part:.3f} of one, seed {near}")
    else:
        unittest.main()
