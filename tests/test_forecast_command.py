"""./relay forecast: its table, its values for a spreadsheet, its picture and its errors, against the model."""

import pathlib
import random
import re
import tempfile
import unittest
from xml.etree import ElementTree

from library import logs
from model import forecast, malformed
from model.links import Links
from model.malformed import GOOD_POST, GOOD_ROUND, N2
from model.scripts import script_line
from relay_command import ROOT, run

from relay import faults, plans  # from tools, which relay_command puts on the path

SVG = "{http://www.w3.org/2000/svg}"
EXAMPLE = ROOT / "examples" / "five-stations.plan"


def plan_of(n, log):
    return script_line(b"N", (n,)) + b"".join(script_line(b"R", masks) for masks in forecast.rounds_of(log, n))


def some_plans():
    rng = random.Random("plans")
    yield 1, []
    yield 1, [0] * 5
    yield 16, []
    for n in (2, 5, 16):
        yield n, list(logs.random_log(rng, n, rng.randrange(20, 40)))


class Answers(unittest.TestCase):
    def test_table_and_values(self):
        for n, log in some_plans():
            _, ends, last = forecast.forecast(log, n)
            rows = list(zip(range(n), ends, last))
            status, text, words = run("forecast", "-", "--csv", given=plan_of(n, log))
            self.assertEqual((status, words), (0, ""))
            self.assertEqual(text, "station,ends,last_round\n" + "".join(f"{s},{count},{u}\n" for s, count, u in rows))
            status, text, words = run("forecast", "-", given=plan_of(n, log))
            self.assertEqual((status, words), (0, ""))
            self.assertEqual([line.split() for line in text.splitlines()[2:2 + n]],
                             [[str(s), str(count), str(u or "-")] for s, count, u in rows])

    def test_posts_are_passed_over(self):
        with_posts = N2 + GOOD_POST + GOOD_ROUND * 2 + GOOD_POST * 40 + GOOD_ROUND
        self.assertEqual(run("forecast", "-", given=with_posts), run("forecast", "-", given=N2 + GOOD_ROUND * 3))

    def test_most_rounds(self):
        self.assertEqual(run("forecast", "-", "--csv", given=N2 + GOOD_ROUND * 2_048),
                         (0, "station,ends,last_round\n0,1024,2048\n1,1024,2048\n", ""))
        self.assertEqual(run("forecast", "-", given=N2 + GOOD_ROUND * 2_049),
                         (1, "", "relay forecast: standard input: refused with 12: the plan has 2,049 rounds, "
                                 "and at most 2,048 are taken\n"))


class Errors(unittest.TestCase):
    def test_malformed_plans(self):
        """Each malformed form is explained by its line."""
        with tempfile.TemporaryDirectory() as folder:
            plan = pathlib.Path(folder, "plan")
            for name, script, _ in malformed.malformed_scripts():
                plan.write_bytes(script)
                with self.subTest(name), self.assertRaisesRegex(faults.Wrong, rf"^{plan}, line \d+: .+$"):
                    plans.read(str(plan))

    def test_words(self):
        with tempfile.TemporaryDirectory() as folder:
            plan = pathlib.Path(folder, "evening.plan")
            plan.write_bytes(N2 + GOOD_ROUND * 5 + b"R       02        1\n")
            words = "number in columns 2 to 10 has a leading zero"
            self.assertEqual(run("forecast", plan), (1, "", f"relay forecast: {plan}, line 7: {words}\n"))
        self.assertEqual(run("forecast", "/tmp"), (2, "", "relay forecast: cannot read /tmp: Is a directory\n"))
        self.assertEqual(run("forecast", EXAMPLE, "--picture", "/nowhere/p.svg"),
                         (2, "", "relay forecast: cannot write /nowhere/p.svg: No such file or directory\n"))


def path_numbers(element, form):
    return [tuple(map(float, match)) for match in re.findall(form, element.get("d"))]


class Picture(unittest.TestCase):
    def drawn(self, plan):
        with tempfile.TemporaryDirectory() as folder:
            file = pathlib.Path(folder, "p.svg")
            status, _, words = run("forecast", "-", "--picture", file, given=plan)
            self.assertEqual((status, words), (0, ""))
            return file.read_text(encoding="utf-8")

    def test_windows_and_ends(self):
        """Every hearing is in one window, windows do not touch, and the marks are the model's ends."""
        for n, log in some_plans():
            root = ElementTree.fromstring(self.drawn(plan_of(n, log)))
            rounds = forecast.rounds_of(log, n)
            heard = {(u, i, j) for u, masks in enumerate(rounds, 1) for i in range(n) for j in range(n)
                     if i != j and masks[i] >> j & 1}
            shown, ends = [], {}
            for element in root.iter(f"{SVG}path"):
                i, j = element.get("data-station"), element.get("data-heard")
                if j is not None:
                    windows = path_numbers(element, r"M(\d+) 0h(\d+)")
                    self.assertTrue(all(one + wide < two for (one, wide), (two, _) in zip(windows, windows[1:])))
                    shown += [(u, int(i), int(j)) for start, wide in windows
                              for u in range(int(start) + 1, int(start + wide) + 1)]
                elif i is not None:
                    ends[int(i)] = [x + 0.5 for x, _ in path_numbers(element, r"M([\d.]+) (-?[\d.]+)v")]
            self.assertEqual(sorted(shown), sorted(heard))
            links = Links(n, rounds)
            self.assertEqual(ends, {s: found for s in range(n) if (found := forecast.end_rounds(links, s))})

    def test_inside(self):
        """Everything drawn over the rounds lies inside the picture."""
        for n, rounds in ((5, 60), (2, 2_048)):
            root = ElementTree.fromstring(self.drawn(plan_of(n, [0] * n * rounds)))
            for element in root.iter(f"{SVG}g"):
                place = re.match(r"translate\((\d+) ([\d.]+)\) scale\(([\d.]+) 1\)", element.get("transform"))
                if place:
                    self.assertLess(int(place[1]) + float(place[3]) * rounds, float(root.get("width")))
                    self.assertLess(float(place[2]), float(root.get("height")))

    def test_the_document_s(self):
        """docs/link-plan.svg is the picture of the example."""
        stored = (ROOT / "docs" / "link-plan.svg").read_text(encoding="utf-8")
        self.assertEqual(self.drawn(EXAMPLE.read_bytes()), stored)


if __name__ == "__main__":
    unittest.main()
