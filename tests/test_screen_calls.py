"""The calls of the planning screen's page against the library called directly, and against the model."""

import base64
import csv
import io
import json
import random
import unittest
import urllib.error
import urllib.request
from array import array
from unittest import mock
from xml.etree import ElementTree

from browser.served import screen
from library import logs
from model import forecast, merge, questions
from model.links import Links
from relay_command import ROOT, run
from test_forecast_command import plan_of

from relay import ask, delta, library, plans
from relay.screen import answers

EXAMPLE = ROOT / "examples" / "five-stations.plan"
MOST = 2 ** 32 - 1
SVG = "{http://www.w3.org/2000/svg}"


def encoded(log):
    """Masks of 16 bits, the low byte first, in base 64."""
    return base64.b64encode(b"".join(mask.to_bytes(2, "little") for mask in log)).decode()


def given(*carriers, show=0, view=(1, 2_048), asked=(), **more):
    """What the page sends; a carrier is N and a log."""
    sent = [{"name": f"plan {at}", "n": n, "log": encoded(log)} for at, (n, log) in enumerate(carriers, 1)]
    return {"plans": sent, "show": show, "view": list(view), "questions": [list(one) for one in asked], **more}


def drawn(rng, most=60):
    n = rng.choice((1, 2, 3, 5, 8, 16))
    return n, logs.random_log(rng, n, rng.randrange(most))


def drawn_questions(rng, n, count):
    return [(rng.randrange(n), rng.randrange(n), rng.choice((1, 2, rng.randint(1, 12), MOST))) for _ in range(count)]


class Calls(unittest.TestCase):
    @classmethod
    def setUpClass(cls):
        cls.served = screen(EXAMPLE)
        cls.address = cls.served.__enter__().address
        cls.addClassCleanup(cls.served.__exit__, None, None, None)

    def post(self, path, sent):
        """The answer, or the words of a refusal."""
        body = sent if isinstance(sent, bytes) else json.dumps(sent).encode()
        try:
            with urllib.request.urlopen(urllib.request.Request(self.address + path, body), timeout=60) as answer:
                return answer.read().decode()
        except urllib.error.HTTPError as wrong:
            with wrong:
                return json.loads(wrong.read())["fault"]

    def look(self, *carriers, **more):
        return json.loads(self.post("look", given(*carriers, **more)))


class Look(Calls):
    def test_forecast(self):
        rng = random.Random("screen")
        for _ in range(25):
            n, log = drawn(rng)
            _, (counts, last) = library.forecast(n, array("H", log))
            found = self.look((n, log))
            self.assertEqual(found["forecast"], {"ends": counts[:n], "last": last[:n]})
            self.assertEqual((found["rounds"], found["alone"]), (len(log) // n, [found["forecast"]]))
            self.assertEqual((found["log"], found["part_alone"], found["answers"]), (None, [], []))
            self.assertLess(found["library_ms"], 1_000)

    def test_ends_in_view(self):
        rng = random.Random("view")
        for _ in range(25):
            n, log = drawn(rng)
            links, rounds = Links(n, forecast.rounds_of(log, n)), len(log) // n
            first = rng.randint(0, rounds + 3)
            last = rng.randint(first, rounds + 5)
            stations = rng.sample(range(n + 1), rng.randint(0, n))
            part = self.look((n, log), view=(first, last), stations=stations)["part"]
            whole = [forecast.end_rounds(links, s) for s in range(n)]
            self.assertEqual(part["ends"], [[u for u in one if first <= u <= last] if s in stations else None
                                            for s, one in enumerate(whole)])
            self.assertEqual((part["first"], part["last"]), (max(1, first), min(rounds, last)))
            if part["first"] <= part["last"]:
                self.assertEqual(part["before"], [sum(u < first for u in one) for one in whole])

    def test_questions(self):
        """The rounds are the library's, put alone and as a page, and the model's; the relay arrives in them."""
        rng, met = random.Random("questions"), set()
        for count in (0, 1, 7, 64, 64):
            n, log = drawn(rng)
            asked, links = drawn_questions(rng, n, count), Links(n, forecast.rounds_of(log, n))
            found = self.look((n, log), asked=asked)
            self.assertIsNone(found["question_fault"])
            rounds = [one["round"] for one in found["answers"]]
            self.assertEqual(rounds, library.questions(n, log, asked)[1])
            self.assertEqual(rounds, [library.questions(n, log, [one])[1][0] for one in asked])
            self.assertEqual(rounds, [questions.received(links, *one) for one in asked])
            for (sender, receiver, k), one in zip(asked, found["answers"]):
                self.assertIsNone(one["error"])
                self.assertEqual(one["start"], questions.received(links, sender, sender, k))
                self.check_hops(links, sender, receiver, one)
                met.add(len(one["hops"]))
        self.assertTrue({0, 1, 2} <= met)

    def test_edits(self):
        """After each edit the ends and answers are those of the plan as it is now, whatever was answered before."""
        rng = random.Random("edits")
        n, log = 4, logs.random_log(rng, 4, 300)
        asked = [(rng.randrange(n), rng.randrange(n), rng.randint(1, 40)) for _ in range(12)]
        for _ in range(20):
            log[rng.randrange(len(log))] ^= 1 << rng.randrange(n)
            found, links = self.look((n, log), asked=asked), Links(n, forecast.rounds_of(log, n))
            self.assertEqual(found["part"]["ends"], [forecast.end_rounds(links, s) for s in range(n)])
            for (sender, receiver, k), one in zip(asked, found["answers"]):
                self.assertIsNone(one["error"])
                self.assertEqual(one["round"], questions.received(links, sender, receiver, k))
                self.check_hops(links, sender, receiver, one)

    def check_hops(self, links, sender, receiver, answer):
        if answer["round"] is None or sender == receiver:
            self.assertEqual(answer["hops"], [])
            return
        at, since = sender, answer["start"]
        for number, heard, hearer in answer["hops"]:
            self.assertEqual(heard, at)
            self.assertGreater(number, since)
            self.assertEqual(links.log[number - 1][hearer] >> heard & 1, 1)
            at, since = hearer, number
        self.assertEqual((at, since), (receiver, answer["round"]))

    def test_wrong_answers_are_errors(self):
        """An answer of the library that the relay does not meet is shown as an error."""
        right = library.questions
        for change, words in ((lambda u: u + 1, "but the relay that was found arrives in round"),
                              (lambda u: u - 1, "but the relay that was found arrives in round"),
                              (lambda u: None, "the library answers never, but")):
            def wrong(n, log, asked, change=change):
                refusal, rounds = right(n, log, asked)
                return refusal, [u if s == r or u is None else change(u) for (s, r, _), u in zip(asked, rounds)]
            with mock.patch.object(library, "questions", wrong):
                found = self.look((3, logs.full_mesh(3, 9)), asked=[(0, 1, 1), (0, 0, 1), (2, 1, 3)])["answers"]
            self.assertIn(words, found[0]["error"])
            self.assertIn(words, found[2]["error"])
            self.assertIsNone(found[1]["error"])

    def test_both(self):
        rng = random.Random("both")
        for _ in range(15):
            n, first = drawn(rng)
            second = logs.random_log(rng, n, rng.randrange(60))
            asked = drawn_questions(rng, n, 5)
            both = array("H", merge.merged(first, second, n))
            self.assertEqual(both, library.merge(n, first, second)[1])
            found = self.look((n, first), (n, second), show="both", asked=asked)
            self.assertEqual(found["log"], encoded(both))
            alone = [self.look((n, log), asked=asked) for log in (first, second, both)]
            self.assertEqual(found["alone"], [one["forecast"] for one in alone[:2]])
            self.assertEqual(found["part_alone"], [one["part"] for one in alone[:2]])
            short = self.look((n, first), (n, second), show="both", asked=asked, alone=False)
            self.assertEqual(short | {"library_ms": 0}, found | {"library_ms": 0, "part_alone": []})
            self.assertEqual(found["forecast"], alone[2]["forecast"])
            self.assertEqual((found["part"], found["answers"]), (alone[2]["part"], alone[2]["answers"]))
            for which, log in enumerate((first, second)):
                shown = self.look((n, first), (n, second), show=which, asked=asked)
                self.assertEqual((shown["part"], shown["answers"], shown["log"], shown["rounds"]),
                                 (alone[which]["part"], alone[which]["answers"], None, len(log) // n))


class Refused(Calls):
    def test_questions(self):
        plan = 5, logs.full_mesh(5, 9)
        limits = "refused with 18: a station is 0 to 4 in this plan and k is at least 1, not"
        for asked, words in (([(0, 1, 1)] * 65, "refused with 18: 65 questions, and at most 64 are answered at once"),
                             ([(0, 1, 1), (0, 5, 1)], f"question 2: {limits} 0 5 1"),
                             ([(5, 0, 1)], f"question 1: {limits} 5 0 1"),
                             ([(0, 1, 0)], f"question 1: {limits} 0 1 0"), ([(0, 1)], f"question 1: {ask.FORM}"),
                             ([(0, 1, MOST + 1)], f"question 1: {ask.FORM}"), ([(0, 1, -1)], f"question 1: {ask.FORM}"),
                             ([(0, 1, True)], f"question 1: {ask.FORM}"), ([(0, 1, "1")], f"question 1: {ask.FORM}"),
                             ([(0, 1, 1.0)], f"question 1: {ask.FORM}")):
            found = self.look(plan, asked=asked)
            self.assertEqual((found["question_fault"], found["answers"]), (words, []))
            self.assertEqual(found["forecast"], self.look(plan)["forecast"])
            self.assertEqual(self.post("answers.csv", given(plan, asked=asked)), words)

    def test_plans(self):
        good = {"name": "p", "n": 2, "log": ""}
        rounds = "p: refused with 12: the plan has"
        for sent, words in (
                ([], "there are one or two 'plans'"), ([good] * 3, "there are one or two 'plans'"),
                ([7], "a plan has its 'name', 'n' and 'log'"), ([{"n": 2}], "a plan has its 'name', 'n' and 'log'"),
                ([good | {"n": "2"}], "'n' is a number from 0 to 4,294,967,295"),
                ([good | {"n": 2 ** 32}], "'n' is a number from 0 to 4,294,967,295"),
                ([good | {"n": 0}], "p: refused with 1: a plan has 1 to 16 stations, not 0"),
                ([good | {"n": 17}], "p: refused with 1: a plan has 1 to 16 stations, not 17"),
                ([good | {"log": 7}], "'log' is no text in base 64"),
                ([good | {"log": "!"}], "'log' is no text in base 64"),
                ([good | {"log": "\u00e9"}], "'log' is no text in base 64"),
                ([good | {"log": "AAAA"}], "'log' has half a mask at its end"),
                ([good | {"log": encoded([0] * 3)}], f"{rounds} 1 round, and at most 2,048 are taken"),
                ([good | {"log": encoded([0] * 2 * 2_049)}], f"{rounds} 2,049 rounds, and at most 2,048 are taken"),
                ([good, good | {"name": "q", "n": 3}],
                 "q is for 3 stations, but p for 2: two plans are merged for one group")):
            show = "both" if len(sent) == 2 else 0
            more = {"plans": sent, "show": show, "view": [1, 1], "questions": [], "from": 0}
            for path in ("look", "delta", "delta-check", "script", "picture", "forecast.csv", "answers.csv"):
                self.assertEqual(self.post(path, more), words, (path, words))

    def test_the_rest(self):
        sent = given((2, [0] * 4))
        for path, change, words in (
                ("look", {"view": [1]}, "'view' is a first and a last round"),
                ("look", {"view": 7}, "'view' is a list"), ("look", {"stations": 7}, "'stations' is a list"),
                ("look", {"stations": ["0"]}, "'stations' is a number from 0 to 4,294,967,295"),
                ("look", {"view": [1, -1]}, "'view' is a number from 0 to 4,294,967,295"),
                ("delta", {"from": 3}, "'from' is a number from 0 to 2"),
                ("delta", {}, "'from' is a number from 0 to 2"),
                *((path, {"show": show}, "'show' is the number of a plan, from 0, or 'both' where there are two")
                  for path in ("look", "delta", "script") for show in (1, -1, "both", True, None, "0"))):
            self.assertEqual(self.post(path, sent | change), words, (path, change))


class Delta(Calls):
    def test_delta(self):
        rng = random.Random("delta")
        for _ in range(15):
            n, log = drawn(rng)
            first = rng.randint(0, len(log) // n)
            found = json.loads(self.post("delta", given((n, log), waiting=0, **{"from": first})))
            self.assertEqual((found["from"], found["delta"]), (first, delta.least(n, log, first)))

    def test_check(self):
        """The library agrees with Delta, and an answer that is wrong on purpose is an objection."""
        rng, right = random.Random("check"), library.questions
        for _ in range(10):
            n, log = drawn(rng)
            first = rng.randint(0, len(log) // n)
            sent = given((n, log), **{"from": first})
            self.assertEqual(json.loads(self.post("delta-check", sent)), {"delta": delta.least(n, log, first), "objection": None})
        sent = given((3, logs.full_mesh(3, 30)), **{"from": 4})
        for wrong, words in ((lambda u: None, "after round 4 no relay from "), (lambda u: 1, None)):
            with mock.patch.object(library, "questions", lambda *asked: (0, [wrong(u) for u in right(*asked)[1]])):
                found = json.loads(self.post("delta-check", sent))["objection"]
            self.assertTrue(found is None if words is None else found.startswith(words), found)

    def test_bound(self):
        """A bound is shown where the plan has so many rounds."""
        sent = given((2, logs.full_mesh(2, 30)), waiting=2, **{"from": 4})
        self.assertEqual(json.loads(self.post("delta", sent))["on_air_by"], [4 + 13, 4 + 22])
        self.assertEqual(json.loads(self.post("delta", sent | {"from": 9}))["on_air_by"], [9 + 13, None])


class Texts(Calls):
    def test_read(self):
        rng = random.Random("read")
        for _ in range(10):
            n, log = drawn(rng)
            found = json.loads(self.post("read?name=a%20plan", plan_of(n, log)))
            self.assertEqual(found, {"name": "a plan", "n": n, "log": encoded(log)})

    def test_exports(self):
        """Each export is what the subcommand prints of the same plan; a script is read back as the plan."""
        rng = random.Random("exports")
        for _ in range(4):
            n, log = drawn(rng)
            asked = drawn_questions(rng, n, 9)
            sent, text = given((n, log), asked=asked), plan_of(n, log)
            self.assertEqual(self.post("script", sent), text.decode())
            self.assertEqual(self.post("forecast.csv", sent), run("forecast", "-", "--csv", given=text)[1])
            named = (" ".join(map(str, one)) for one in asked)
            self.assertEqual(self.post("answers.csv", sent), run("ask", "-", *named, "--csv", given=text)[1])
            self.assertEqual(json.loads(self.post("read", self.post("script", sent).encode()))["log"], encoded(log))

    def test_picture(self):
        """The picture is that of ./relay forecast --picture, which docs/link-plan.svg is for the example."""
        plan = plans.read(str(EXAMPLE))
        self.assertEqual(self.post("picture", given((plan.n, plan.log))),
                         (ROOT / "docs" / "link-plan.svg").read_text(encoding="utf-8"))

    def test_relay_in_the_picture(self):
        """With a question its relay is drawn, through the middle of each round of a hop and from height to height."""
        plan = plans.read(str(EXAMPLE))
        root = ElementTree.fromstring(self.post("picture", given((plan.n, plan.log), asked=[(4, 1, 2)])))
        relay = [one for one in root.iter(f"{SVG}path") if one.get("class") == "relay"]
        self.assertEqual([one.findtext(f"{SVG}title") for one in relay],
                         ["relay: from station 4 in round 15, station 3 hears 4 in round 16, "
                          "station 0 hears 3 in round 17, station 1 hears 0 in round 18"])
        points = [tuple(map(float, one.split())) for one in relay[0].get("d")[1:].split("L")]
        column = (points[-1][0] - points[0][0]) / 3
        self.assertEqual([round((x - points[0][0]) / column) for x, _ in points], [0, 1, 1, 2, 2, 3, 3])
        names = (one for one in root.iter(f"{SVG}text") if one.get("class") == "station")
        heights = {one.text: float(one.get("y")) - 4 for one in names}
        for at, station in ((0, 4), (2, 3), (4, 0), (6, 1)):
            self.assertAlmostEqual(points[at][1], heights[f"station {station}"], delta=0.2)
        self.assertNotIn("relay", self.post("picture", given((plan.n, plan.log), asked=[(4, 1, 99)])))

    def test_exports_of_both(self):
        first, second = (2, [2, 0] * 3), (2, [0, 1] * 5)
        text = self.post("script", given(first, second, show="both"))
        self.assertEqual(text, plan_of(2, merge.merged(first[1], second[1], 2)).decode())
        rows = list(csv.reader(io.StringIO(self.post("forecast.csv", given(first, second, show="both")))))
        self.assertEqual(rows, [["station", "ends", "last_round"], ["0", "1", "2"], ["1", "2", "4"]])


class Masks(unittest.TestCase):
    def test_there_and_back(self):
        log = array("H", [0, 1, 258, 65_535])
        self.assertEqual(answers.text_of(log), encoded(log))
        self.assertEqual(answers.log_of(encoded(log)), log)


if __name__ == "__main__":
    unittest.main()
