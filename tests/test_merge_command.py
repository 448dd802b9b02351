"""./relay merge: its plan and its errors, against the model."""

import pathlib
import random
import tempfile
import unittest

from library import logs
from model import merge
from model.malformed import GOOD_ROUND, N2
from relay_command import ROOT, run
from test_forecast_command import plan_of

FIRST = ROOT / "examples" / "first-carrier.script"


class Merge(unittest.TestCase):
    def test_plans(self):
        rng = random.Random("merge")
        with tempfile.TemporaryDirectory() as folder:
            for n, one, two in ((1, 2, 3), (5, 9, 0), (16, 4, 7)):
                first, second = logs.random_log(rng, n, one), logs.random_log(rng, n, two)
                file = pathlib.Path(folder, "first.plan")
                file.write_bytes(plan_of(n, first))
                expected = 0, plan_of(n, merge.merged(first, second, n)).decode(), ""
                self.assertEqual(run("merge", file, "-", given=plan_of(n, second)), expected)
                self.assertEqual(run("merge", "-", file, given=plan_of(n, second)), expected)

    def test_errors(self):
        self.assertEqual(run("merge", FIRST, "-", given=N2 + GOOD_ROUND),
                         (1, "", f"relay merge: standard input is for 2 stations, but {FIRST} for 3: "
                                 "two plans are merged for one group\n"))
        self.assertEqual(run("merge", FIRST, "-", given=N2 + b"R\n")[2],
                         "relay merge: standard input, line 2: the line has 1 columns where R has 19: "
                         "the letter and 2 numbers of nine columns\n")
        self.assertEqual(run("merge", "-", FIRST, given=plan_of(3, [0] * 3 * 2_049)),
                         (1, "", "relay merge: standard input: refused with 12: the plan has 2,049 rounds, "
                                 "and at most 2,048 are taken\n"))
        self.assertEqual(run("merge", FIRST, "/nowhere"),
                         (2, "", "relay merge: cannot read /nowhere: No such file or directory\n"))


if __name__ == "__main__":
    unittest.main()
