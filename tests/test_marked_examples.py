"""M1 to M12 of document 01, "Marked examples of the trade"; M10 with the numbers of document 02, A6,
and M11 at the limit 32 of A2."""

import unittest

from model import frames, group, hearing, outside, records, refusals, station, turns
from model.bodies import DROP, EMPTY, INSERT, NEUTRAL, SHIFT, Body
from model.records import Record


def with_label(label, count):
    """A record of station 0 with this own label and count."""
    return Record(0, count, EMPTY, (label,) + (0,) * 15)


def is_newer(seen, held):
    return records.newer(with_label(*seen), with_label(*held))


class Newer(unittest.TestCase):
    def test_m1(self):
        self.assertTrue(is_newer(seen=(1, 1), held=(1, 0)))

    def test_m2(self):
        self.assertFalse(is_newer(seen=(1, 0), held=(1, 0)))

    def test_m3(self):
        for seen_count in range(256):
            for held_count in (0, 1, 30, 255):
                self.assertTrue(is_newer(seen=(0, seen_count), held=(2, held_count)))

    def test_m4(self):
        for seen_count in range(256):
            for held_count in (0, 1, 30, 255):
                self.assertFalse(is_newer(seen=(2, seen_count), held=(0, held_count)))

    def test_none_held(self):
        self.assertTrue(records.newer(with_label(0, 0), None))


class Packing(unittest.TestCase):
    def test_m5(self):
        self.assertEqual(records.pack((1, 2)), 9)

    def test_m6(self):
        self.assertEqual(records.pack((2, 2, 1)), 26)

    def test_m7(self):
        self.assertEqual(records.pack((2,) * 16), 0xAAAAAAAA)

    def test_m8(self):
        self.assertEqual(frames.frame_size(1), 20)
        self.assertEqual(frames.frame_size(16), 260)
        one = station.written_frame(station.fresh(1, 0).station)
        self.assertEqual(len(one), 20)
        sixteen = frames.frame_bytes(16, 3, [Record(k, 0, EMPTY, (0,) * 16) for k in range(16)])
        self.assertEqual(len(sixteen), 260)


class Posts(unittest.TestCase):
    def refusal(self, kind, event, argument):
        """The refusal of a post, which a station and a group give alike."""
        body = Body(kind, event, argument)
        alone = station.post(station.fresh(1, 0).station, body).refusal
        self.assertEqual(group.post(group.fresh(1).group, 0, body).refusal, alone)
        return alone

    def test_m9(self):
        self.assertEqual(self.refusal(SHIFT, 1, -90_000), refusals.DONE)
        self.assertEqual(self.refusal(SHIFT, 1, -90_001), refusals.NOT_AN_EDIT)

    def test_m10(self):
        self.assertEqual(self.refusal(INSERT, 1, 2_699_999), refusals.DONE)
        self.assertEqual(self.refusal(INSERT, 1, 2_700_000), refusals.NOT_AN_EDIT)

    def test_m10_in_a_frame(self):
        for start, refusal in ((2_699_999, refusals.DONE), (2_700_000, refusals.BAD_RECORD)):
            record = Record(1, 0, Body(INSERT, 1, start), (0,) * 16)
            for others in ([], [Record(2, 0, NEUTRAL, (0,) * 16)]):
                data = frames.frame_bytes(3, 1, [record] + others)
                self.assertEqual(frames.check_frame(data, 3, 0), refusal, start)
                one = station.fresh(3, 0).station
                self.assertEqual(hearing.hear(one, data).refusal, refusal, start)

    def test_m10_in_a_state(self):
        """Wherever a station holds the body: every call of the station and of its group gives 2, or none does."""
        fresh = station.fresh(2, 0).station
        for start, bad in ((2_699_999, False), (2_700_000, True)):
            body = Body(INSERT, 1, start)
            for one in (fresh._replace(body=body), outside.with_waiting(fresh, 1, body),
                        outside.with_record(fresh, 0, body=body), outside.with_record(fresh, 1, body=body),
                        outside.with_lane(fresh, 0, body), outside.with_lane(fresh, 1, body),
                        outside.with_lane(fresh, 1, NEUTRAL, body)):
                stations = (one,) + group.fresh(2).group[1:]
                answers = {station.post(one, Body(DROP, 1, 0)).refusal, station.write_frame(one, bytes(260))[0],
                           turns.turn(one).refusal, group.post(stations, 1, Body(DROP, 1, 0)).refusal,
                           group.round_of(stations, (0,) * 16).refusal}
                self.assertEqual(answers, {refusals.OUTSIDE_LIMITS if bad else refusals.DONE}, one)

    def test_other_limits(self):
        for kind, event, argument, inside in (
                (SHIFT, 1, 90_000, True), (SHIFT, 1, 90_001, False), (SHIFT, 1, 0, True),
                (INSERT, 1, 0, True), (INSERT, 1, -1, False),
                (INSERT, 99_999_999, 0, True), (INSERT, 100_000_000, 0, False),
                (INSERT, 0, 0, False), (DROP, 0, 0, False), (SHIFT, 0, 0, False),
                (DROP, 1, 0, True), (DROP, 1, 1, False), (DROP, 1, -1, False),
                (DROP, 99_999_999, 0, True), (DROP, 100_000_000, 0, False),
                (SHIFT, 99_999_999, 0, True), (SHIFT, 100_000_000, 0, False),
                (0, 0, 0, False), (1, 0, 0, False), (5, 1, 0, False), (258, 1, 0, False)):
            with self.subTest(kind=kind, event=event, argument=argument):
                expected = refusals.DONE if inside else refusals.NOT_AN_EDIT
                self.assertEqual(self.refusal(kind, event, argument), expected)

    def test_m11(self):
        """At the limit 32 (document 02, A2)."""
        full = station.fresh(1, 0, 32).station
        for event in range(1, 33):
            refusal, full = station.post(full, Body(DROP, event, 0))
            self.assertEqual(refusal, refusals.DONE)
        self.assertEqual(station.post(full, Body(DROP, 33, 0)), (refusals.QUEUE_FULL, full))
        self.assertEqual(full.waiting.slots[0], Body(DROP, 1, 0))
        self.assertEqual(full.waiting.slots[31], Body(DROP, 32, 0))


class OneStation(unittest.TestCase):
    def test_m12(self):
        insert = Body(INSERT, 7, 100)
        alone = group.post(group.fresh(1).group, 0, insert).group
        first = group.round_of(alone, (0,) * 16)
        second = group.round_of(first.group, (0,) * 16)
        for result in (first, second):
            self.assertEqual(result.refusal, refusals.DONE)
            self.assertEqual(group.used_takings(result.reports[0]), [])
            self.assertTrue(result.reports[0].ended)
        self.assertFalse(first.reports[0].aired)
        self.assertEqual(first.reports[0].ended_body, EMPTY)
        self.assertEqual(first.reports[0].started_body, insert)
        self.assertTrue(second.reports[0].aired)
        self.assertEqual(second.reports[0].row, (insert,) + (EMPTY,) * 15)
        self.assertEqual(second.reports[0].ended_body, insert)
        self.assertEqual(second.reports[0].started_body, NEUTRAL)


if __name__ == "__main__":
    unittest.main()
