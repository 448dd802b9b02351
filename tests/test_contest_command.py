"""./relay contest: who wins, the file's form, and playing against it."""

import pathlib
import random
import tempfile
import unittest

from library import logs
from model import contest
from relay_command import ROOT, run

from relay import contest as command  # from tools, which relay_command puts on the path

EXAMPLE = ROOT / "examples" / "three-stations.contest"
NO_STATION = ": refused with 1: there are 1 to 16 stations and 'keep' names one of them, not"
NO_CONTEST = ": refused with 20: a contest has at most 4 stations, 1 to 4 sets and at most 6 rounds, not"
GOOD = ["stations 2", "keep 1", "rounds 3", "set 2 1", "set 0 0 # silence"]


def text_of(n, s, rounds, sets):
    return "".join(line + "\n" for line in (f"stations {n}", f"keep {s}", f"rounds {rounds}",
                                            *("set " + " ".join(map(str, one)) for one in sets)))


def some_contest(rng):
    n = rng.randint(1, 4)
    log = list(logs.random_log(rng, n, rng.randint(2, 4)))
    return n, rng.randrange(n), rng.randint(1, 6), [tuple(log[at:at + n]) for at in range(0, len(log), n)]


class Answer(unittest.TestCase):
    def test_winner(self):
        said = set()
        for seed in range(12):
            n, s, rounds, sets = some_contest(random.Random(f"contest {seed}"))
            status, text, words = run("contest", "-", given=text_of(n, s, rounds, sets).encode())
            self.assertEqual((status, words), (0, ""))
            side, pick = contest.winner(n, s, sets, rounds)
            expected = f"The keeper can force it; its lowest first pick is set {pick}."
            self.assertEqual(text.splitlines()[-1], expected if side else "The breaker can prevent it.")
            said.add(side)
        self.assertEqual(said, {0, 1})

    def test_positions(self):
        """Searched by the library's forecasts they are the model's, and at the start the library's own answer."""
        rng = random.Random("positions")
        for _ in range(25):
            n, s, rounds, sets = some_contest(rng)
            one = command.Contest("", n, s, rounds, list(map(list, sets)))
            keeper_wins, played = command.positions(one), [contest.read_bits(masks, n) for masks in sets]
            self.assertEqual(keeper_wins(()), command.answer(one)[0])
            for _ in range(6):
                picks = tuple(rng.randrange(len(sets)) for _ in range(rng.randint(0, rounds)))
                found = contest.keeper_wins(n, s, played, rounds, tuple(played[pick] for pick in picks))
                self.assertEqual(keeper_wins(picks), found)


class Form(unittest.TestCase):
    def refused(self, lines):
        status, text, words = run("contest", "-", given=("\n".join(lines) + "\n").encode())
        self.assertEqual((status, text), (1, ""))
        return words.removeprefix("relay contest: standard input").rstrip()

    def test_errors(self):
        for lines, words in (
                (["station 2"], ", line 1: 'station'; a line is stations, keep, rounds or set, with its numbers"),
                (GOOD + ["", "keep 0"], ", line 7: a second 'keep'; it stands once"),
                (["stations 2 3"], ", line 1: 'stations' has 2 numbers; it takes one"),
                (["stations"], ", line 1: 'stations' has 0 numbers; it takes one"),
                (["stations -1"], ", line 1: '-1'; a number here is 0 to 4,294,967,295"),
                (GOOD + ["set 65536 0"], ", line 6: '65536'; a number here is 0 to 65,535"),
                (GOOD + ["set 1"], ", line 6: a set of 1 mask; it takes one for each of 2 stations"),
                (GOOD[1:], ": there is no line 'stations'"),
                (["stations 2", "keep 2", "rounds 9"], f"{NO_STATION} 2 of 2"),
                (["stations 2", "keep 0", "rounds 7", "set 0 0"], f"{NO_CONTEST} 2, 1 and 7"),
                (GOOD[:3], f"{NO_CONTEST} 2, 0 and 3")):
            self.assertEqual(self.refused(lines), words)
        self.assertEqual(run("contest", "/nowhere")[0], 2)


class Play(unittest.TestCase):
    def played(self, text, answers):
        with tempfile.TemporaryDirectory() as folder:
            file = pathlib.Path(folder, "c")
            file.write_text(text)
            status, said, words = run("contest", file, "--play", given="".join(f"{one}\n" for one in answers).encode())
        self.assertEqual((status, words), (0, ""))
        return said

    def test_the_person_loses(self):
        """Whatever is picked against it, the side that can force its result does."""
        rng = random.Random("play")
        won = set()
        for seed in range(12):
            n, s, rounds, sets = some_contest(random.Random(f"contest {seed}"))
            side, pick = contest.winner(n, s, sets, rounds)
            said = self.played(text_of(n, s, rounds, sets), ["x", 4, *(rng.randrange(len(sets)) for _ in range(6))])
            self.assertIn(f"You are the {('keeper', 'breaker')[side]}.", said)
            self.assertTrue(said.endswith(f"the {('breaker', 'keeper')[side]} wins.\n"), said)
            if side:
                self.assertIn(f"round 1, the keeper picks set {pick}\n", said)
            won.add(side)
        self.assertEqual(won, {0, 1})

    def test_left(self):
        self.assertTrue(self.played(EXAMPLE.read_text(), []).endswith("The play is left.\n"))
        self.assertIn("A set is a number from 0 to 2.\n", self.played(EXAMPLE.read_text(), ["", "three", "3", "-1"]))

    def test_no_rounds(self):
        said = self.played("stations 1\nkeep 0\nrounds 0\nset 0\n", [])
        self.assertTrue(said.endswith("Station 0 has not ended its first broadcast: the breaker wins.\n"))


if __name__ == "__main__":
    unittest.main()
