"""./relay ask: its table, its values for a spreadsheet and its errors, against the model."""

import pathlib
import random
import tempfile
import unittest

from library import logs
from model import forecast, questions
from model.links import Links
from relay_command import ROOT, run
from test_forecast_command import plan_of

FORM = "a question is three numbers up to 4,294,967,295, as '0 4 2': station s, station r and k"
EXAMPLE = ROOT / "examples" / "five-stations.plan"


class Answers(unittest.TestCase):
    def test_table_and_values(self):
        rng = random.Random("ask")
        log = logs.random_log(rng, 5, 30)
        links = Links(5, forecast.rounds_of(log, 5))
        asked = [(rng.randrange(5), rng.randrange(5), rng.randint(1, 9)) for _ in range(60)]
        asked += [(0, 0, 1), (0, 1, 4_294_967_295)]
        rows = []
        for one in asked:
            number = questions.received(links, *one)
            rows.append([*map(str, one), "never" if number is None else str(number)])
        with tempfile.TemporaryDirectory() as folder:
            file = pathlib.Path(folder, "questions")
            file.write_text("# s r k\n\n" + "".join(f"{s} {r}  {k}\n" for s, r, k in asked[2:]))
            named = (*(" ".join(map(str, one)) for one in asked[:2]), "--questions", file)
            status, text, words = run("ask", "-", *named, "--csv", given=plan_of(5, log))
            self.assertEqual((status, words), (0, ""))
            self.assertEqual(text, "sender,receiver,k,round\n" + "".join(",".join(row) + "\n" for row in rows))
            status, text, words = run("ask", "-", *named, given=plan_of(5, log))
            self.assertEqual([line.split() for line in text.splitlines()[1:]], rows)
        self.assertEqual(rows[-2:], [["0", "0", "1", "0"], ["0", "1", "4294967295", "never"]])

    def test_errors(self):
        limits = "refused with 18: a station is 0 to 4 in this plan and k is at least 1, not"
        for asked, words in ((("0 1",), f"question 1: '0 1': {FORM}"),
                             (("0 1 1", "0 -1 1"), f"question 2: '0 -1 1': {FORM}"),
                             (("0 1 4294967296",), f"question 1: '0 1 4294967296': {FORM}"),
                             (("0 1 1", "0 5 1"), f"question 2: {limits} 0 5 1"),
                             (("0 1 1", "0 1 0", "9 9 9"), f"question 2: {limits} 0 1 0"),
                             (("0 1 1",) * 65, "refused with 18: 65 questions, and at most 64 are answered at once")):
            self.assertEqual(run("ask", EXAMPLE, *asked), (1, "", f"relay ask: {words}\n"))

    def test_file_errors(self):
        self.assertEqual(run("ask", EXAMPLE, "--questions", "-", given=b"0 1 1\n\n0 1 x\n")[2],
                         f"relay ask: standard input, line 3: '0 1 x': {FORM}\n")
        self.assertEqual(run("ask", EXAMPLE, "--questions", "/nowhere"),
                         (2, "", "relay ask: cannot read /nowhere: No such file or directory\n"))
        self.assertEqual(run("ask", "-", "0 0 1", given=plan_of(1, [0] * 2_049))[2],
                         "relay ask: standard input: refused with 12: the plan has 2,049 rounds, "
                         "and at most 2,048 are taken\n")


if __name__ == "__main__":
    unittest.main()
