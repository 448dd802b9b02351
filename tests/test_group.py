"""The calls of a group (document 01, "A group and its rounds")."""

import random
import unittest

from model import group, outside, states, station
from model.bodies import DROP, EMPTY, NEUTRAL, Body
from model.hearing import Taking
from model.queues import contents
from model.records import Record
from model.states import labels

EDIT = Body(DROP, 5, 0)


def masks(*values):
    return values + (0,) * (16 - len(values))


def some_groups(number):
    """Random groups inside their limits, with the generator that made them."""
    for seed in range(number):
        rng = random.Random(seed)
        yield rng, states.random_group(rng, rng.randint(1, 8))


def random_masks(rng):
    return tuple(rng.getrandbits(16) for _ in range(16))


class Fresh(unittest.TestCase):
    def test_fresh(self):
        for n in range(1, 17):
            refusal, one = group.fresh(n)
            self.assertEqual((refusal, len(one), group.group_n(one)), (0, 16, n))
            self.assertTrue(group.group_in_limits(one))
            for place in range(16):
                size, own = (n, place) if place < n else (1, 0)
                self.assertEqual(one[place], station.fresh(size, own).station)

    def test_every_limit(self):
        """The stations below N have the limit that was named; the places from N up hold 8."""
        for n in (1, 2, 15, 16):
            for limit in range(1, 33):
                refusal, one = group.fresh(n, limit)
                self.assertEqual(refusal, 0)
                self.assertTrue(group.group_in_limits(one))
                self.assertEqual(one[:n], tuple(station.fresh(n, own, limit).station for own in range(n)))
                self.assertEqual(one[n:], (station.fresh(1, 0, 8).station,) * (16 - n))

    def test_refused(self):
        """1, then 13; the answer never holds the limit that was named."""
        alone = (station.fresh(1, 0).station,) * 16
        for n in (0, 17, 255):
            for limit in (8, 1, 32, 0, 33):
                self.assertEqual(group.fresh(n, limit), (1, alone))
        for limit in (0, 33, 255, 256 + 8):
            self.assertEqual(group.fresh(3, limit), (13, alone))


class Limits(unittest.TestCase):
    def refused(self, bad, name):
        self.assertFalse(group.group_in_limits(bad), name)
        self.assertEqual(group.post(bad, 99, EMPTY), (2, bad), name)
        self.assertEqual(group.round_of(bad, masks()), (2, bad, (group.NO_REPORT,) * 16), name)

    def test_a_station_outside(self):
        for n, places in ((2, (0, 1)), (16, (0, 7, 15))):
            good = group.fresh(n).group
            for place in places:
                for name, bad in outside.stations_outside(good[place]).items():
                    self.refused(good[:place] + (bad,) + good[place + 1:], name)

    def test_another_n_or_place(self):
        good = group.fresh(4).group
        self.refused(good[:2] + (station.fresh(5, 2).station,) + good[3:], "another N")
        self.refused((good[1], good[0]) + good[2:], "two places exchanged")
        self.refused((station.fresh(5, 0).station,) + good[1:], "station 0 says 5")

    def test_fewer_stations_read(self):
        """Station 0's N decides: with a smaller one there the others have another N."""
        good = group.fresh(4).group
        self.refused((station.fresh(2, 0).station,) + good[1:], "station 0 says 2")
        alone = (station.fresh(1, 0).station,) + good[1:]
        self.assertTrue(group.group_in_limits(alone))


class Post(unittest.TestCase):
    def test_posts(self):
        for rng, one in some_groups(100):
            n = group.group_n(one)
            place = rng.randrange(n)
            refusal, after = group.post(one, place, EDIT)
            self.assertEqual((refusal, after[place]), station.post(one[place], EDIT))
            self.assertEqual(after[:place] + after[place + 1:], one[:place] + one[place + 1:])

    def test_order(self):
        """2, 1, 4, 3; 2 stands with the limits above."""
        full = group.fresh(2).group
        for _ in range(8):
            full = group.post(full, 1, EDIT).group
        for place in (2, 15, 16, 255, 999_999_999):
            self.assertEqual(group.post(full, place, NEUTRAL), (1, full))
        self.assertEqual(group.post(full, 1, NEUTRAL), (4, full))
        self.assertEqual(group.post(full, 1, EDIT), (3, full))
        self.assertEqual(group.post(full, 0, EDIT).refusal, 0)


    def test_stations_may_differ(self):
        """Each station's own limit counts, and stations with different limits are one group."""
        limits = (3, 1, 32)
        one = tuple(station.fresh(3, own, limit).station for own, limit in enumerate(limits)) + group.fresh(3).group[3:]
        self.assertTrue(group.group_in_limits(one))
        for place, limit in enumerate(limits):
            for _ in range(limit):
                refusal, one = group.post(one, place, EDIT)
                self.assertEqual(refusal, 0)
            self.assertEqual(group.post(one, place, EDIT), (3, one))


class Round(unittest.TestCase):
    def test_ignored_bits_and_places(self):
        """The own bit, bits from N up and masks from N up make no difference; places from N up are
        neither read nor changed."""
        for rng, one in some_groups(120):
            n = group.group_n(one)
            some = random_masks(rng)
            plain = tuple(mask & (1 << n) - 1 & ~(1 << p) if p < n else 0
                          for p, mask in enumerate(some))
            result = group.round_of(one, some)
            self.assertEqual(result, group.round_of(one, plain))
            self.assertEqual(result.group[n:], one[n:])
            bare = one[:n] + group.fresh(1).group[n:]
            self.assertEqual(group.round_of(bare, some).reports, result.reports)
            self.assertEqual(result.reports[n:], (group.NO_REPORT,) * (16 - n))

    def test_stays_inside_its_limits(self):
        seen = set()
        for rng, one in some_groups(300):
            result = group.round_of(one, random_masks(rng))
            seen.add(result.refusal)
            self.assertTrue(group.group_in_limits(result.group))
            if result.refusal:
                self.assertEqual(result, group.refused_round(result.refusal, one))
        self.assertEqual(seen, {0, 8, 10, 14})

    def test_news_crosses_one_link(self):
        """Station 1 hears 0 and station 2 hears 1: after one round 2 knows nothing of 0."""
        result = group.round_of(group.fresh(3).group, masks(0, 1, 2))
        self.assertEqual([one.held[:3] for one in result.group[:3]],
                         [(True, False, False), (True, True, False), (False, True, True)])
        result = group.round_of(group.fresh(3).group, masks(2, 4, 0))
        self.assertEqual(result.group[0].held[:3], (True, True, False))

    def test_10(self):
        """A station that nobody hears writes its frame too."""
        one = group.fresh(3).group
        one = one[:2] + (outside.with_record(one[2], 2, count=5),) + one[3:]
        self.assertEqual(group.round_of(one, masks()), group.refused_round(10, one))

    def relayed(self):
        """Station 0 of three; 1 and 2 hold records of each other that lead 0 two labels on.

        Station 0 has label 0 for both. Station 1 holds of 2 a record with label 1, and station 2 its
        own with label 2, both with a body; so station 0 takes two bodies of 2 in one round.
        """
        zero, one, two = group.fresh(3).group[:3]
        one = outside.with_record(one, 1, body=EMPTY, labels=labels(0, 1))
        one = outside.with_record(one, 2, body=EDIT, labels=labels(0, 0, 1))
        two = outside.with_record(two, 2, body=NEUTRAL, labels=labels(0, 0, 2))
        return (zero, one, two) + group.fresh(3).group[3:]

    def test_two_takings_of_one_source(self):
        result = group.round_of(self.relayed(), masks(6))
        self.assertEqual(result.refusal, 0)
        self.assertEqual(group.used_takings(result.reports[0]), [Taking(2, EDIT), Taking(2, NEUTRAL)])
        self.assertEqual(contents(result.group[0].lanes[2]), (EDIT, NEUTRAL))
        self.assertEqual(result.group[0].table[2], Record(2, 0, NEUTRAL, labels(0, 0, 2)))
        self.assertEqual(result.group[0].count, 3)

    def test_8(self):
        """With a body in the lane before, the second taking would be the third in it."""
        zero, *others = self.relayed()
        full = (outside.with_lane(zero, 2, NEUTRAL),) + tuple(others)
        self.assertEqual(group.round_of(full, masks(6)), group.refused_round(8, full))
        self.assertEqual(group.round_of(full, masks(2)).refusal, 0)

    def conflicting(self):
        """Station 0 of four; stations 1 and 2 hold records of 3 with one label and count, and other bodies."""
        stations = list(group.fresh(4).group)
        for place, body in ((1, NEUTRAL), (2, EDIT)):
            stations[place] = outside.with_record(stations[place], 3, station=3, body=body,
                                                  labels=labels(0, 0, 0, 1))
        return tuple(stations)

    def test_14(self):
        """A record conflicts with one that came in the same round, and only there."""
        one = self.conflicting()
        self.assertEqual(group.round_of(one, masks(6)), group.refused_round(14, one))
        for mask in (2, 4):
            self.assertEqual(group.round_of(one, masks(mask)).refusal, 0)

    def test_first_refused_frame(self):
        """Frames that meet 8 and 14, in either order: the first decides, stations before senders."""
        one = list(self.conflicting())
        one[0] = outside.with_lane(one[0], 3, NEUTRAL, EDIT)
        full = tuple(one)
        self.assertEqual(group.round_of(full, masks(6)), group.refused_round(8, full))
        one = list(self.conflicting())
        one[3] = outside.with_record(one[3], 3, station=3, count=0, body=EDIT, labels=labels(0, 0, 0, 2))
        one[0] = outside.with_lane(one[0], 3, NEUTRAL)
        late = tuple(one)
        self.assertEqual(group.round_of(late, masks(10)), group.refused_round(8, late))
        self.assertEqual(group.round_of(late, masks(14)), group.refused_round(14, late))
        self.assertEqual(group.round_of(late, masks(10, 0, 0, 6)), group.refused_round(8, late))

    def test_10_before_8(self):
        zero, one, two = self.relayed()[:3]
        full = (outside.with_lane(zero, 2, NEUTRAL), one, two._replace(
            table=two.table[:2] + (two.table[2]._replace(count=255),) + two.table[3:]))
        full += group.fresh(3).group[3:]
        self.assertEqual(group.round_of(full, masks(6)), group.refused_round(10, full))

    def test_thirty_takings(self):
        """Station 1 holds a first body of all fifteen others, station 2 the next of each."""
        stations = list(group.fresh(16).group)
        for sender, label, body in ((1, 1, NEUTRAL), (2, 2, EDIT)):
            for k in range(1, 16):
                with_label = tuple(label if place == k else 0 for place in range(16))
                stations[sender] = outside.with_record(stations[sender], k, body=body,
                                                      labels=with_label)
        result = group.round_of(tuple(stations), masks(0b110))
        self.assertEqual(result.refusal, 0)
        self.assertEqual(result.reports[0].takings,
                         tuple(Taking(k, NEUTRAL) for k in range(1, 16))
                         + tuple(Taking(k, EDIT) for k in range(1, 16)))


if __name__ == "__main__":
    unittest.main()
