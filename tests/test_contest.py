"""A13 by the model: going through all plays against strategies, which are functions from the picks so far to a pick."""

import itertools
import random
import unittest

from library import logs
from model import contest


def strategies(sets, rounds, first):
    """All strategies of the side that picks in the rounds first, first + 2 ..: a pick for each list of picks before."""
    before = [picks for number in range(first, rounds + 1, 2)
              for picks in itertools.product(range(sets), repeat=number - 1)]
    for chosen in itertools.product(range(sets), repeat=len(before)):
        yield dict(zip(before, chosen))


def plays(sets, rounds, first, strategy):
    """All plays in which that side follows its strategy."""
    found = [()]
    for number in range(1, rounds + 1):
        if number % 2 == first % 2:
            found = [picks + (strategy[picks],) for picks in found]
        else:
            found = [picks + (pick,) for picks in found for pick in range(sets)]
    return found


def forces(n, s, sets, rounds, first, wanted, pick=None):
    """Whether that side has a strategy under which the broadcast ends, or doesn't, in every play of the other."""
    def wins(strategy):
        return all(contest.ends(n, s, tuple(sets[one] for one in play)) == wanted
                   for play in plays(len(sets), rounds, first, strategy))
    return any(wins(strategy) for strategy in strategies(len(sets), rounds, first)
               if pick is None or strategy[()] == pick)


class Contest(unittest.TestCase):
    def test_against_strategies(self):
        """Exactly one side can force its result, and the keeper's pick is the lowest of those that begin a strategy."""
        won = {contest.KEEPER: 0, contest.BREAKER: 0}
        rng = random.Random("strategies")
        for _ in range(150):
            n, rounds = rng.randint(1, 3), rng.randint(0, 4)
            count = rng.randint(1, 2 if rounds > 3 else 3)
            log = logs.random_log(rng, n, count)
            sets = [contest.read_bits(log[at:at + n], n) for at in range(0, n * count, n)]
            s = rng.randrange(n)
            keeper, breaker = (forces(n, s, sets, rounds, first, wanted) for first, wanted in ((1, True), (2, False)))
            self.assertNotEqual(keeper, breaker)
            side, pick = contest.winner(n, s, sets, rounds)
            self.assertEqual(side == contest.KEEPER, keeper)
            if keeper:
                self.assertEqual(pick, min(one for one in range(count) if forces(n, s, sets, rounds, 1, True, one)))
            won[side] += 1
        self.assertGreater(min(won.values()), 30)

    def test_no_rounds(self):
        self.assertEqual(contest.winner(1, 0, [(0,)], 0), (contest.BREAKER, 0))
        self.assertEqual(contest.winner(1, 0, [(0,)], 1), (contest.KEEPER, 0))


if __name__ == "__main__":
    unittest.main()
