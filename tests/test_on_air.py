"""The last lines of ./relay forecast: how long news takes, and by when an edit is aired everywhere, against the model."""

import random
import re
import unittest

from library import logs
from model import delivery
from model.forecast import rounds_of
from model.malformed import GOOD_ROUND, N2
from relay_command import run
from test_forecast_command import plan_of

NEWS = r"news: from round (\d+) on it reaches every station within (\d+) rounds?"
BOUND = r"aired everywhere by round ([\d,]+)(, if the links go on so)?$"
ALONE = r"posts nothing: by round ([\d,]+)(, if the links go on so)?$"


def least_delay(n, log, first):
    """By the model: the least delay that news has from a round on, or None."""
    slow = delivery.slowest(n, rounds_of(log, n))
    rounds = len(slow) - 1
    return next((d for d in range(1, rounds - first + 1) if delivery.has_delay(slow, d, first, rounds)), None)


class OnAir(unittest.TestCase):
    def lines(self, n, log, *more):
        status, text, words = run("forecast", "-", *more, given=plan_of(n, log))
        self.assertEqual((status, words), (0, ""))
        return text.splitlines()[2 + n:]

    def test_drawn_plans(self):
        rng, met = random.Random("on air"), set()
        for _ in range(24):
            n, rounds = rng.randint(1, 6), rng.randrange(60)
            log = list(logs.random_log(rng, n, rounds))
            first, behind = rng.randint(0, rounds), rng.randint(0, 31)
            found = self.lines(n, log, "--from", str(first), "--behind", str(behind))
            delay = least_delay(n, log, first)
            met.add(delay)
            if delay is None:
                self.assertEqual(found, [f"news: from round {first} on it does not reach every station; no bound for an edit"])
                continue
            self.assertEqual(re.fullmatch(NEWS, found[0]).groups(), (str(first), str(delay)))
            for line, form, factor in ((found[1], BOUND, 6 * behind + 10), (found[2], ALONE, 3 * behind + 7)):
                bound = first + delay * factor
                self.assertEqual(re.search(form, line).groups(), (f"{bound:,}", ", if the links go on so" if bound > rounds else None))
        self.assertGreater(len(met), 4)
        self.assertIn(None, met)

    def test_two_stations(self):
        """Both hear each other: an edit posted at once is aired by round 10, inside a plan of ten rounds and past one of nine."""
        for rounds, words in ((10, ""), (9, ", if the links go on so")):
            text = run("forecast", "-", given=N2 + GOOD_ROUND * rounds)[1]
            self.assertIn(f"behind 0 of its desk: aired everywhere by round 10{words}\n", text)

    def test_wrong_use(self):
        self.assertEqual(run("forecast", "-", "--from", "4", given=N2 + GOOD_ROUND * 3),
                         (1, "", "relay forecast: standard input: --from 4: the plan has 3 rounds\n"))
        for option, word in (("--from", "2049"), ("--from", "-1"), ("--behind", "32"), ("--behind", "x")):
            status, text, words = run("forecast", "-", f"{option}={word}", given=N2)
            self.assertEqual((status, text), (2, ""))
            self.assertIn(f"'{word}' is no number from 0 to", words)


if __name__ == "__main__":
    unittest.main()
