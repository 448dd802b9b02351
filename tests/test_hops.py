"""The hops of a relay (tools/relay/hops.py) and the ends in a part of a plan (tools/relay/ends.py), against the model.
"""

import random
import unittest
from array import array
from unittest import mock

from library import logs
from model.forecast import end_rounds, rounds_of
from model.links import Links
from relay_command import ROOT  # noqa: F401: puts tools on the path

from relay import ends, faults, hops, library
from relay.hearings import hearings


def drawn(rng, count):
    for _ in range(count):
        n = rng.choice((1, 2, 3, 5, 9, 16))
        yield n, logs.random_log(rng, n, rng.randrange(60))


class Hearings(unittest.TestCase):
    def test_digits(self):
        for n, log in drawn(random.Random("hearings"), 30):
            found = hearings(n, log)
            for i in range(n):
                for j in range(n):
                    heard = [i != j and masks[i] >> j & 1 for masks in rounds_of(log, n)]
                    self.assertEqual(list(found[i][j].decode()), ["1" if one else "0" for one in heard])


class Hops(unittest.TestCase):
    def test_relays(self):
        """Each relay found is one, and arrives when the model's first does; where there is none, none is found."""
        rng, met = random.Random("hops"), set()
        for n, log in drawn(rng, 60):
            links, heard = Links(n, rounds_of(log, n)), hearings(n, log)
            sender, start = rng.randrange(n), rng.randint(0, len(links.log))
            first = links.arrivals(sender, start)
            self.assertEqual(hops.relay(heard, sender, sender, start), [])
            for receiver in set(range(n)) - {sender}:
                found = hops.relay(heard, sender, receiver, start)
                met.add(found and len(found))
                self.assertEqual(found is None, receiver not in first)
                if found:
                    self.check_relay(links, found, sender, receiver, start)
                    self.assertEqual(found[-1].round, first[receiver])
        self.assertTrue({None, 1, 2, 3} <= met)

    def check_relay(self, links, found, sender, receiver, start):
        """A chain of hearings in strictly rising rounds after the start."""
        self.assertEqual([sender] + [hop.hearer for hop in found], [hop.heard for hop in found] + [receiver])
        rounds = [start] + [hop.round for hop in found]
        self.assertEqual(rounds, sorted(set(rounds)))
        for hop in found:
            self.assertEqual(links.log[hop.round - 1][hop.hearer] >> hop.heard & 1, 1)

    def test_fault(self):
        one = [hops.Hop(3, 0, 1), hops.Hop(5, 1, 2)]
        for answer, start, found in ((5, 2, one), (2, 2, []), (None, 2, None), (None, None, None)):
            self.assertIsNone(hops.fault(answer, start, found))
        for answer, start, found, words in (
                (4, 2, one, "the library answers round 4, but the relay that was found arrives in round 5"),
                (None, 2, one, "the library answers never, but the relay that was found arrives in round 5"),
                (6, 2, None, "the library answers round 6, but no relay was found"),
                (3, 2, [], "the library answers round 3, but the relay that was found arrives in round 2")):
            self.assertEqual(hops.fault(answer, start, found), words)


class Ends(unittest.TestCase):
    def test_parts(self):
        rng = random.Random("ends")
        long = (2, logs.full_mesh(2, 700)), (1, array("H", [0] * 300)), (5, logs.random_log(rng, 5, 900))
        for n, log in (*drawn(rng, 40), *long):
            rounds = len(log) // n
            links = Links(n, rounds_of(log, n))
            whole = [end_rounds(links, s) for s in range(n)]
            for _ in range(3 if rounds else 0):
                first = rng.choice((1, rng.randint(1, rounds)))
                last = rng.choice((rounds, rng.randint(first, rounds)))
                stations = rng.sample(range(n), rng.randint(1, n))
                expected = ([sum(u < first for u in one) for one in whole],
                            {s: [u for u in whole[s] if first <= u <= last] for s in stations})
                self.assertEqual(ends.in_part(n, log, first, last, stations), expected, (n, list(log), first, last))

    def test_judged(self):
        """Ends that are not those of the library's forecast are not shown."""
        log, right = logs.full_mesh(3, 40), library.questions

        def moved(n, part, asked):
            refusal, rounds = right(n, part, asked)
            return refusal, [None if number is None else number - (number > 9) for number in rounds]

        def lost(n, part, asked):
            return 0, [None] * len(asked)

        def one_more(n, part, asked):
            refusal, rounds = right(n, part, asked)
            return refusal, [1, *rounds[:-1]]
        for wrong, words in ((moved, "were found up to round 39, but the library's last is in round 40"),
                             (lost, "0 ends of station 0 were found where the library counts 20"),
                             (one_more, "21 ends of station 0 were found where the library counts 20")):
            with mock.patch.object(library, "questions", wrong), self.assertRaisesRegex(faults.Wrong, words):
                ends.in_part(3, log, 1, 40, range(3))


if __name__ == "__main__":
    unittest.main()
