"""Hear (document 01, "A station and its calls")."""

import unittest

from model import frames, hearing, outside, station
from model.bodies import DROP, EMPTY, INSERT, NEUTRAL, SHIFT, Body
from model.queues import contents
from model.records import CONFLICTING, NEWER, OLDER, SAME, Record, age
from model.states import flags, labels, some_frame, some_stations

EDIT = Body(DROP, 5, 0)


class Hear(unittest.TestCase):
    """Station 0 of three hears station 1."""

    def setUp(self):
        self.one = station.fresh(3, 0).station

    def hear(self, one, *records):
        return hearing.hear(one, frames.frame_bytes(3, 1, records))

    def test_first_record(self):
        record = Record(1, 0, EMPTY, labels(0, 1))
        refusal, after, taken = self.hear(self.one, record)
        self.assertEqual((refusal, taken), (0, 0))
        self.assertEqual(after.labels[:3], (1, 1, 0))
        self.assertEqual(after.count, 1)
        self.assertEqual(after.table[1], record)
        self.assertEqual(after.held[:3], (True, True, False))
        self.assertEqual(after.acked[:3], (True, False, False))
        self.assertEqual(after.table[0], self.one.table[0])

    def test_acknowledged(self):
        _, after, _ = self.hear(self.one, Record(1, 1, EMPTY, labels(1, 1)))
        self.assertEqual(after.acked[:3], (True, True, False))

    def test_taken(self):
        one = self.one._replace(labels=labels(1, 1, 1))
        first, second = Record(1, 0, EDIT, labels(0, 2)), Record(2, 0, NEUTRAL, labels(0, 2, 2))
        refusal, after, taken = self.hear(one, Record(0, 0, EDIT, labels(2)), first, second)
        self.assertEqual((refusal, taken), (0, 0b110))
        self.assertEqual([contents(lane) for lane in after.lanes[:3]], [(), (EDIT,), (NEUTRAL,)])
        self.assertEqual(after.labels, labels(1, 2, 2))
        self.assertEqual(after.count, 2)
        self.assertEqual(after.table[0], one.table[0])

    def test_newer_without_advance(self):
        """A newer record of a label that is not next replaces and acknowledges, but takes nothing."""
        one = self.one._replace(labels=labels(1, 2))
        _, after, taken = self.hear(one, Record(1, 4, EDIT, labels(1, 2)))
        self.assertEqual(taken, 0)
        self.assertEqual((after.count, after.labels, after.lanes), (0, one.labels, one.lanes))
        self.assertTrue(after.acked[1])
        self.assertEqual(after.table[1].count, 4)

    def test_not_newer_does_nothing(self):
        for rng, one in some_stations(400, least_n=2):
            data = some_frame(rng, one)
            records = frames.read_frame(data)
            ages = [age(record, hearing.held_record(one, record.station), one.n)
                    for record in records if record.station != one.own]
            if NEWER not in ages:
                refusal = 14 if CONFLICTING in ages else 0
                self.assertEqual(hearing.hear(one, data), (refusal, one, 0))

    def test_not_newer_acknowledges_nothing(self):
        """A record that would acknowledge, heard again by a station that has not acknowledged it."""
        record = Record(1, 1, EDIT, labels(1, 1))
        one = self.hear(self.one, record).station
        one = one._replace(acked=flags(True, False, False))
        self.assertEqual(self.hear(one, record), (0, one, 0))
        older = record._replace(count=0)
        self.assertEqual(self.hear(one, older), (0, one, 0))

    def test_count_stays_255(self):
        one = self.one._replace(count=255)
        self.assertEqual(self.hear(one, Record(1, 0, EMPTY, labels(0, 1))).station.count, 255)

    def test_8(self):
        one = self.one._replace(labels=labels(1, 1, 1))
        full = outside.with_lane(one, 2, NEUTRAL, EDIT)
        first, second = Record(1, 0, EDIT, labels(0, 2)), Record(2, 0, NEUTRAL, labels(0, 2, 2))
        self.assertEqual(self.hear(full, first, second), (8, full, 0))
        # Nothing is taken from an Empty record, nor from one whose label is not next.
        self.assertEqual(self.hear(full, first, second._replace(body=EMPTY)).refusal, 0)
        self.assertEqual(self.hear(full, first, second._replace(labels=labels(0, 2, 1))).refusal, 0)

    def test_order(self):
        full = outside.with_lane(self.one._replace(labels=labels(1, 1)), 1, NEUTRAL, EDIT)
        data = frames.frame_bytes(3, 1, [Record(1, 0, EDIT, labels(0, 2))])
        self.assertEqual(hearing.hear(full, data), (8, full, 0))
        broken = frames.frame_bytes(3, 1, [Record(1, 5, EDIT, labels(0, 2))])
        self.assertEqual(hearing.hear(full, broken), (7, full, 0))
        own = bytes([3, 0]) + broken[2:]
        self.assertEqual(hearing.hear(full, own), (6, full, 0))
        self.assertEqual(hearing.hear(full, own[:-1]), (5, full, 0))


class Conflict(unittest.TestCase):
    """Station 0 of three, which holds a record of station 1 (document 02, A4)."""

    RECORD = Record(1, 2, EDIT, labels(0, 1, 2))

    def setUp(self):
        fresh = station.fresh(3, 0).station
        self.one = outside.with_record(fresh._replace(labels=labels(1, 1)), 1, **self.RECORD._asdict())
        self.one = self.one._replace(held=flags(True, True, False))

    def hear(self, *records):
        return hearing.hear(self.one, frames.frame_bytes(3, 1, records))

    def test_same(self):
        self.assertEqual(self.hear(self.RECORD), (0, self.one, 0))

    def test_each_other_field(self):
        for changed in (EMPTY, NEUTRAL, EDIT._replace(event=6), EDIT._replace(kind=SHIFT),
                        Body(SHIFT, 5, -1), Body(INSERT, 5, 0)):
            self.assertEqual(self.hear(self.RECORD._replace(body=changed)), (14, self.one, 0), changed)
        for changed in (labels(1, 1, 2), labels(2, 1, 2), labels(0, 1, 0), labels(0, 1, 1)):
            self.assertEqual(self.hear(self.RECORD._replace(labels=changed)), (14, self.one, 0), changed)

    def test_label_and_count_come_first(self):
        """With another own label or count a record is newer or older, whatever else it has."""
        other = self.RECORD._replace(body=NEUTRAL)
        self.assertEqual(age(other._replace(count=3), self.RECORD, 3), NEWER)
        self.assertEqual(age(other._replace(labels=labels(0, 2, 2)), self.RECORD, 3), NEWER)
        self.assertEqual(age(other._replace(count=1), self.RECORD, 3), OLDER)
        self.assertEqual(age(other._replace(labels=labels(0, 0, 2)), self.RECORD, 3), OLDER)
        self.assertEqual(self.hear(other._replace(count=1)), (0, self.one, 0))

    def test_labels_from_n_up_are_no_part(self):
        held = self.RECORD._replace(labels=labels(0, 1, 2, 1, 2, 3))
        self.one = outside.with_record(self.one, 1, **held._asdict())
        self.assertEqual(self.hear(self.RECORD), (0, self.one, 0))
        self.assertEqual(age(self.RECORD, held, 3), SAME)
        self.assertEqual(age(self.RECORD, held, 4), CONFLICTING)

    def test_own_record(self):
        own = self.one.table[0]._replace(body=NEUTRAL)
        self.assertEqual(self.hear(own, self.RECORD), (0, self.one, 0))

    def test_14_before_8(self):
        """An overfull lane before the conflict in the frame, and behind it."""
        overfull = outside.with_lane(self.one._replace(labels=labels(1, 1)), 2, NEUTRAL, EDIT)
        third = Record(2, 0, EDIT, labels(0, 0, 1))
        wrong = self.RECORD._replace(body=NEUTRAL)
        self.one = overfull
        self.assertEqual(self.hear(self.RECORD, third), (8, self.one, 0))
        self.assertEqual(self.hear(wrong, third), (14, self.one, 0))
        self.one = outside.with_lane(self.one, 1, NEUTRAL, EDIT)
        self.one = outside.with_record(self.one, 2, station=2, count=0, body=NEUTRAL, labels=labels(0, 0, 1))
        self.one = self.one._replace(held=flags(True, True, True))
        newer = self.RECORD._replace(labels=labels(0, 2, 2))
        self.assertEqual(self.hear(newer), (8, self.one, 0))
        self.assertEqual(self.hear(newer, third), (14, self.one, 0))

    def test_7_before_14(self):
        wrong = self.RECORD._replace(body=NEUTRAL, count=5)
        self.assertEqual(self.hear(wrong), (7, self.one, 0))


if __name__ == "__main__":
    unittest.main()
