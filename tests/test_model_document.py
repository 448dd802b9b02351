"""What docs/MODEL.md claims of late frames, computed with the model: the run that it shows, how few rounds are enough
to break demand 3, and how many do no harm to two stations."""

import random
import tempfile
import unittest

import console_blocks
from console_blocks import ROOT
from late_listing import late_run
from model import demand3, listing
from model.bodies import DROP, Body
from model.late import LateRun, explore
from model.lines import PostLine, RoundLine
from model.scripts import script_of

DOCUMENT = (ROOT / "docs" / "MODEL.md").read_text(encoding="utf-8")
DRAWN = 60


def mesh(n, rounds, posts):
    """A script in which every station posts so many drops, and all hear each other."""
    calls = [PostLine(s, Body(DROP, 10 * s + e, 0)) for s, count in enumerate(posts) for e in range(1, count + 1)]
    return script_of(n, calls + [RoundLine(tuple(2 ** n - 1 - 2 ** p for p in range(n)))] * rounds)


def broken(run):
    """The names of the sentences of demand 3 that a run breaks."""
    sentences = (demand3.taken_begins_started, demand3.aired_lists_agree, demand3.ends_follow_relays)
    return {sentence.__name__ for sentence in sentences if list(sentence(run))}


def drawn_run(seed, lateness):
    """A run of three to five stations in which each frame is heard or not, in its round or up to so many later."""
    draw = random.Random(seed)
    run = LateRun(draw.randint(3, 5))
    missing, tardy = draw.choice((0, 0.1, 0.3)), draw.choice((0.05, 0.2, 0.5))
    for p in range(run.n):
        for e in range(1, 9):
            run.post(p, Body(DROP, 10 * p + e, 0))
    for u in range(1, 21):
        pairs = [(p, s) for p in range(run.n) for s in range(run.n) if p != s and draw.random() >= missing]
        masks = tuple(sum(1 << s for q, s in pairs if q == p) for p in range(run.n))
        run.late_round(masks, {pair: max(1, u - draw.randint(1, lateness)) for pair in pairs if draw.random() < tardy})
    return run


class Document(unittest.TestCase):
    def test_blocks(self):
        self.assertEqual(len(console_blocks.commands(DOCUMENT)), 3)
        with tempfile.TemporaryDirectory() as folder:
            console_blocks.run(self, DOCUMENT, folder, ("tests",))


class Late(unittest.TestCase):
    def test_in_time(self):
        """With every frame in its round the late run is the model's own, and breaks nothing."""
        script = mesh(2, 11, (5, 0))
        run = late_run(script, 8, 1, 0, 8)
        self.assertEqual(b"".join(run.lines) + b"END\n", listing.listing(script))
        self.assertEqual(broken(run), set())

    def test_four_rounds_late(self):
        """One frame breaks three sentences, and no frame is refused."""
        run = late_run(mesh(2, 11, (5, 0)), 8, 1, 0, 4)
        self.assertEqual(broken(run), {"taken_begins_started", "aired_lists_agree", "ends_follow_relays"})
        self.assertEqual(run.dropped, [])
        self.assertEqual([body.event for body in run.taken[1][0]], [1, 2, 3, 1])
        self.assertEqual([taking.body.event for taking in run.aired[0]], [1, 2, 3, 4])
        self.assertEqual([taking.body.event for taking in run.aired[1]], [1, 2, 3, 1])

    def test_three_stations(self):
        """Two rounds late are enough: station 0 takes an old edit of 1 from what 2 wrote."""
        run = late_run(mesh(3, 7, (5, 5, 5)), 7, 0, 2, 5)
        self.assertEqual([body.event for body in run.taken[0][1]], [11, 12, 13, 11])
        self.assertEqual(broken(late_run(mesh(3, 7, (5, 5, 5)), 7, 0, 2, 6)), set())

    def test_two_stations_whole(self):
        """All that can happen: nothing is mistaken up to three rounds late, and with four by round 6."""
        self.assertEqual([explore(lateness)[1] for lateness in range(5)], [None, None, None, None, 6])

    def test_drawn_runs(self):
        """One round late nothing broke; two rounds late the same runs break often, so they would have shown it."""
        early = {"taken_begins_started", "aired_lists_agree"}
        for seed in range(DRAWN):
            run = drawn_run(seed, 1)
            self.assertEqual(broken(run) & early, set(), seed)
            self.assertEqual(run.dropped, [], seed)
        self.assertGreater(sum(1 for seed in range(DRAWN) if broken(drawn_run(seed, 2)) & early), 5)


if __name__ == "__main__":
    unittest.main()
