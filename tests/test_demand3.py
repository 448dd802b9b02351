"""Every sentence of demand 3 on random lists of calls (document 01, "A group and its rounds")."""

import itertools
import unittest

from model import demand3, group, scripts
from model.bodies import DROP, Body
from model.lines import PostLine, RoundLine

RUNS = 320


def calls_of(seed):
    if scripts.seeded_edition(seed):
        return scripts.seeded_channels(seed)
    return scripts.seeded_desks(seed) if seed % 2 else scripts.seeded_calls(seed)


def check_seed(seed):
    """What the run of a seed breaks, with the seed and its script; None where it holds. Half of the
    seeds run edition 1, and of the others every second posts from both desks."""
    n, calls = calls_of(seed)
    limit, edition = scripts.seeded_limit(seed), scripts.seeded_edition(seed)
    fault = demand3.first_fault(n, calls, limit, edition)
    if fault is None:
        return None
    desks = [call.desk for call in calls if isinstance(call, PostLine)]
    script = scripts.script_of(n, calls).decode("ascii")
    return f"seed {seed}, {fault}, with the limit {limit}, edition {edition}, posts of the desks {desks}\n{script}"


class RandomRuns(unittest.TestCase):
    def test_every_sentence(self):
        for seed in range(RUNS):
            with self.subTest(seed=seed):
                fault = check_seed(seed)
                if fault is not None:
                    self.fail(fault)


class WhatTheRunsReach(unittest.TestCase):
    """The random runs are of no use unless they come to what the sentences are about."""

    @classmethod
    def setUpClass(cls):
        cls.refusals, cls.runs, cls.sizes, cls.limits = set(), [], set(), set()
        for seed in range(0, RUNS, 7):
            n, calls = calls_of(seed)
            limit = scripts.seeded_limit(seed)
            run = demand3.Run(n, limit, scripts.seeded_edition(seed))
            for call in calls:
                if isinstance(call, RoundLine):
                    run.round(call.masks)
                    continue
                assert isinstance(call, PostLine)
                cls.refusals.add(group.post(run.group, call.station, call.body, call.desk).refusal)
                run.post(call.station, call.body, call.desk)
            cls.runs.append(run)
            cls.sizes.add(n)
            cls.limits.add(limit)

    def test_sizes(self):
        self.assertEqual(self.sizes, set(range(1, 17)))

    def test_limits(self):
        self.assertLess({1, 8, 32}, self.limits)

    def test_refused_posts(self):
        self.assertEqual(self.refusals, {0, 1, 3, 4, 15, 17})

    def test_channels_are_aired(self):
        """Runs of both editions air edits, and those of edition 1 on many channels."""
        channels = [{body.channel for aired in run.aired for _, body in aired} for run in self.runs]
        self.assertIn({0}, channels)
        self.assertTrue(any(len(some) > 5 and 0 not in some for some in channels))

    def test_desks_start_in_turn(self):
        """Some stations start edits of both desks one after the other, and some two of one desk."""
        desks = ["".join(str(desk) for desk, _ in starts) for run in self.runs for starts in run.starts]
        for piece in ("010", "101", "00", "11"):
            self.assertTrue(any(piece in starts for starts in desks), piece)

    def test_some_never_end_and_some_end_often(self):
        most = [max(map(len, run.ends)) for run in self.runs]
        self.assertIn(0, most)
        self.assertGreater(max(most), 9)  # labels come round three times

    def test_stations_air_apart(self):
        """In some runs the aired lists have different lengths, and some of them air edits."""
        self.assertTrue(any(len(set(map(len, run.aired))) > 1 for run in self.runs))
        self.assertTrue(any(all(run.aired) for run in self.runs if run.n > 4))


class SmallLists(unittest.TestCase):
    def test_no_calls(self):
        for n in range(1, 17):
            self.assertIsNone(demand3.first_fault(n, []))

    def test_silence(self):
        for n in range(1, 17):
            self.assertIsNone(demand3.first_fault(n, [RoundLine((0,) * n)] * 4))

    def test_every_limit(self):
        """A full queue at every limit, and one post more, before the first round and between rounds."""
        for limit in range(1, 33):
            calls = [PostLine(0, Body(DROP, event, 0)) for event in range(1, limit + 2)]
            calls += [RoundLine((2, 1))] * 3 + calls[:2] + [RoundLine((2, 1))] * 9
            self.assertIsNone(demand3.first_fault(2, calls, limit))
            run = demand3.Run(2, limit)
            for call in calls[:limit + 1]:
                run.post(call.station, call.body)
            self.assertEqual(len(run.accepted[0][0]), limit)

    def test_every_list_of_two_desks(self):
        """A station alone: every list of up to six calls, each a post of either desk or a round."""
        for length in range(7):
            for choice in itertools.product((0, 1, None), repeat=length):
                calls = [RoundLine((0,)) if desk is None else PostLine(0, Body(DROP, event, 0), desk)
                         for event, desk in enumerate(choice, 1)]
                self.assertIsNone(demand3.first_fault(1, calls, 2))

    def test_two_stations_every_log_of_four_rounds(self):
        """All 256 logs: each station hears the other or not, round by round."""
        for bits in range(256):
            calls = [RoundLine((bits >> 2 * u & 1 and 2, bits >> 2 * u + 1 & 1)) for u in range(4)]
            self.assertIsNone(demand3.first_fault(2, calls))


if __name__ == "__main__":
    unittest.main()
