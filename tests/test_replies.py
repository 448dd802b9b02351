"""Replies stay behind what they reply to, on drawn lists of calls with many equal bodies (document 02,
A14)."""

import itertools
import random
import unittest

from model import replies, scripts
from model.bodies import DROP, SHIFT, Body
from model.lines import PostLine, RoundLine

RUNS = 240
ONE, OTHER = Body(DROP, 7, 0), Body(SHIFT, 7, -1)


def calls_of(seed):
    """Every body that may be posted is one of two, mostly the same."""
    n, calls = scripts.seeded_desks(seed)
    calls = scripts.on_one_channel(calls, scripts.seeded_edition(seed))
    rng = random.Random(f"bodies {seed}")
    return n, replies.with_bodies(calls, lambda number: rng.choice((ONE, ONE, ONE, OTHER)))


def check_seed(seed):
    """What the run of a seed breaks, with the seed and its script; None where it holds."""
    n, calls = calls_of(seed)
    limit, edition = scripts.seeded_limit(seed), scripts.seeded_edition(seed)
    fault = replies.first_fault(n, calls, limit, edition)
    if fault is None:
        return None
    desks = [call.desk for call in calls if isinstance(call, PostLine)]
    script = scripts.script_of(n, calls).decode("ascii")
    return f"seed {seed}, {fault}, with the limit {limit}, edition {edition}, posts of the desks {desks}\n{script}"


class RandomRuns(unittest.TestCase):
    def test_every_sentence(self):
        for seed in range(RUNS):
            with self.subTest(seed=seed):
                fault = check_seed(seed)
                if fault is not None:
                    self.fail(fault)


class WhatTheRunsReach(unittest.TestCase):
    """The runs are of no use unless replies are aired behind what they reply to, and bodies are equal."""

    @classmethod
    def setUpClass(cls):
        cls.aired, cls.left = [], 0
        for seed in range(0, RUNS, 2):
            n, calls = calls_of(seed)
            run = replies.run_of(n, calls, scripts.seeded_limit(seed), scripts.seeded_edition(seed))
            edits = replies.by_place(run)
            for edit, seen in run.replies:
                elsewhere = [q for q in range(n) if edit in edits[q]]
                if seen and elsewhere:
                    cls.aired.append((run, edit, seen, edits, elsewhere))
                cls.left += bool(seen) and len(elsewhere) < n

    def test_many_replies_are_aired(self):
        self.assertGreater(len(self.aired), 150)

    def test_some_lists_lack_a_reply(self):
        self.assertGreater(self.left, 50)

    def test_both_desks(self):
        self.assertEqual({edit.desk for _, edit, _, _, _ in self.aired}, {0, 1})

    def test_both_editions(self):
        self.assertEqual({run.group[0].edition for run, *_ in self.aired}, {0, 1})

    def test_replies_to_the_other_desk_and_to_other_stations(self):
        kinds = set()
        for run, edit, seen, edits, _ in self.aired:
            for x in edits[edit.source][:seen]:
                kinds.add((x.source == edit.source, x.desk == edit.desk))
        self.assertEqual(kinds, set(itertools.product((True, False), repeat=2)))

    def test_equal_bodies(self):
        """Replies whose body is that of every edit that their station had aired."""
        alike = 0
        for run, edit, seen, edits, _ in self.aired:
            body = run.accepted[edit.source][edit.desk][edit.number]
            alike += {b for _, b in run.aired[edit.source][:seen]} == {body}
        self.assertGreater(alike, 50)


class SmallLists(unittest.TestCase):
    def test_every_list_of_one_station(self):
        """Every list of up to seven calls, each a post of either desk with one body, or a round."""
        for length in range(8):
            for choice in itertools.product((0, 1, None), repeat=length):
                calls = [RoundLine((0,)) if desk is None else PostLine(0, ONE, desk) for desk in choice]
                self.assertIsNone(replies.first_fault(1, calls, 2))

    def test_two_stations(self):
        """One post, and two more of the same body in every two places between eight rounds, each at
        either station and of either desk, while both stations hear each other."""
        posts = [PostLine(p, ONE, desk) for p in (0, 1) for desk in (0, 1)]
        for places in itertools.combinations_with_replacement(range(8), 2):
            for chosen in itertools.product(posts, repeat=2):
                calls = []
                for u in range(8):
                    calls += [post for place, post in zip(places, chosen) if place == u]
                    calls.append(RoundLine((2, 1)))
                self.assertIsNone(replies.first_fault(2, [PostLine(1, ONE)] + calls, 2))


if __name__ == "__main__":
    unittest.main()
