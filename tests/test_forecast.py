"""The forecast of the model against the end rule tried round by round, and against the group's rounds."""

import random
import unittest

from model import forecast
from model.demand3 import Run
from model.links import Links
from model.scripts import random_edit


def random_log(rng, most_n=5, most_rounds=14):
    n, density = rng.randint(1, most_n), rng.choice((0.1, 0.3, 0.6, 1.0))
    return n, [sum(1 << j for j in range(16) if rng.random() < density) for _ in range(n * rng.randint(0, most_rounds))]


class Forecast(unittest.TestCase):
    def test_against_the_end_rule(self):
        ended = 0
        for seed in range(300):
            n, log = random_log(random.Random(seed))
            links = Links(n, forecast.rounds_of(log, n))
            ends = [links.end_rounds(s) for s in range(n)]
            self.assertEqual([forecast.end_rounds(links, s) for s in range(n)], ends, (n, log))
            self.assertEqual(forecast.forecast(log, n), (0, tuple(len(one) for one in ends) + (0,) * (16 - n),
                                                         tuple(max(one, default=0) for one in ends) + (0,) * (16 - n)))
            ended += sum(map(len, ends))
        self.assertGreater(ended, 1000)

    def test_against_the_rounds(self):
        """The ends that a group's rounds report from fresh, whatever is posted."""
        for seed in range(60):
            rng = random.Random(seed)
            n, log = random_log(rng, 6)
            run = Run(n)
            for masks in forecast.rounds_of(log, n):
                if rng.random() < 0.5:
                    run.post(rng.randrange(n), random_edit(rng, seed + 1))
                run.round(masks + (0,) * (16 - n))
            self.assertEqual(forecast.forecast(log, n)[1][:n], tuple(map(len, run.ends)))
            self.assertEqual(forecast.forecast(log, n)[2][:n], tuple(max(one, default=0) for one in run.ends))

    def test_refusals(self):
        for length, n, refusal in ((0, 0, 1), (0, 17, 1), (1, 2 ** 32 - 1, 1), (1, 2, 12), (2_049, 1, 12), (33, 16, 12),
                                   (0, 1, 0), (2_048, 1, 0), (32_768, 16, 0), (32_784, 16, 12)):
            self.assertEqual(forecast.forecast([0] * length, n)[0], refusal)


if __name__ == "__main__":
    unittest.main()
