"""A11 by the model: what the group's rounds show, and longer logs."""

import random
import unittest

from library import logs
from model import forecast, group, questions
from model.links import Links


def advances(log, n):
    """(s, r) -> the rounds in which r's label for s advances, in the group's rounds from fresh."""
    state = group.fresh(n).group
    found = {(s, r): [] for s in range(n) for r in range(n)}
    for u, masks in enumerate(forecast.rounds_of(log, n), 1):
        after = group.round_of(state, masks + (0,) * (16 - n)).group
        for s, r in found:
            if after[r].labels[s] != state[r].labels[s]:
                found[s, r].append(u)
        state = after
    return found


class Questions(unittest.TestCase):
    def some_logs(self, count):
        for seed in range(count):
            rng = random.Random(f"questions {seed}")
            n = rng.randint(1, 5)
            yield rng, n, logs.random_log(rng, n, rng.randrange(20))

    def test_labels_advance(self):
        """A station's own label advances in the rounds of its starts but for the first."""
        answered = 0
        for _, n, log in self.some_logs(120):
            links = Links(n, forecast.rounds_of(log, n))
            for (s, r), rounds in advances(log, n).items():
                expected = [0] * (s == r) + rounds
                found = [questions.received(links, s, r, k) for k in range(1, len(expected) + 3)]
                self.assertEqual(found, expected + [None, None], (n, log, s, r))
                answered += len(rounds)
        self.assertGreater(answered, 1500)

    def test_rounds_added(self):
        """They turn never into one of them, and change no other answer."""
        turned = 0
        for rng, n, log in self.some_logs(80):
            rounds = len(log) // n
            some, whole = rng.randint(0, rounds), Links(n, forecast.rounds_of(log, n))
            part = Links(n, forecast.rounds_of(log[:some * n], n))
            for s in range(n):
                for r in range(n):
                    for k in range(1, rounds + 2):
                        early, late = questions.received(part, s, r, k), questions.received(whole, s, r, k)
                        self.assertTrue(early == late or early is None and late > some)
                        turned += early != late
        self.assertGreater(turned, 300)


if __name__ == "__main__":
    unittest.main()
