"""Turn (document 01, "A station and its calls")."""

import itertools
import unittest

from model import outside, station, turns
from model.bodies import DROP, EMPTY, NEUTRAL, SHIFT, Body
from model.queues import Queue, contents
from model.records import Record
from model.states import flags, labels

EDIT = Body(DROP, 5, 0)
OTHER = Body(DROP, 6, 0)


class Turn(unittest.TestCase):
    def ready(self, own_lane=(), waiting=()):
        """Station 0 of two, all acknowledged."""
        one = station.fresh(2, 0).station._replace(acked=flags(True, True), count=2)
        one = outside.with_lane(one, 0, *own_lane)
        return one._replace(waiting=Queue(len(waiting), waiting + (EMPTY,) * (32 - len(waiting))))

    def test_nothing_to_do_but_the_record(self):
        one = self.ready()._replace(acked=flags(True), body=EDIT)
        result = turns.turn(one)
        self.assertEqual(result[2:], (False, (EMPTY,) * 16, False, EMPTY, EMPTY))
        self.assertEqual(result.station.table[0], Record(0, 2, EDIT, labels(1)))
        self.assertEqual(result.station._replace(table=one.table), one)

    def test_starts_the_oldest(self):
        other = Body(SHIFT, 6, -1)
        result = turns.turn(self.ready(waiting=(EDIT, other)))
        after = result.station
        self.assertEqual((result.ended, result.ended_body, result.started_body), (True, EMPTY, EDIT))
        self.assertEqual(contents(after.waiting), (other,))
        self.assertEqual(contents(after.lanes[0]), (EDIT,))
        self.assertEqual((after.count, after.body, after.labels), (0, EDIT, labels(2)))
        self.assertEqual(after.acked, flags(True))
        self.assertEqual(after.table[0], Record(0, 0, EDIT, labels(2)))

    def test_starts_neutral(self):
        result = turns.turn(self.ready())
        self.assertEqual(result.started_body, NEUTRAL)
        self.assertEqual(contents(result.station.lanes[0]), (NEUTRAL,))

    def test_starts_empty_while_the_own_lane_is_full(self):
        one = self.ready(own_lane=(EDIT,), waiting=(EDIT,))._replace(body=EDIT)
        result = turns.turn(one)
        self.assertEqual((result.ended, result.ended_body, result.started_body), (True, EDIT, EMPTY))
        self.assertEqual(result.station.lanes, one.lanes)
        self.assertEqual(result.station.waiting, one.waiting)
        self.assertEqual(result.station.body, EMPTY)

    def test_airs_before_it_starts(self):
        """The airing empties the own lane, so that the next edit starts in the same turn."""
        one = outside.with_lane(self.ready(own_lane=(EDIT,), waiting=(EDIT,)), 1, NEUTRAL, EDIT)
        result = turns.turn(one)
        self.assertTrue(result.aired)
        self.assertEqual(result.row, (EDIT, NEUTRAL) + (EMPTY,) * 14)
        self.assertEqual(result.started_body, EDIT)
        self.assertEqual([contents(lane) for lane in result.station.lanes[:2]], [(EDIT,), (EDIT,)])

    def test_one_row_a_turn(self):
        one = outside.with_lane(self.ready(own_lane=(NEUTRAL,)), 1, NEUTRAL, NEUTRAL)
        result = turns.turn(one._replace(acked=flags(True)))
        self.assertTrue(result.aired)
        self.assertEqual(result.station.lanes[1], Queue(1, (NEUTRAL, EMPTY)))
        self.assertEqual(result.station.lanes[0], Queue(0, (EMPTY, EMPTY)))

    def test_desks(self):
        """Which desk starts, by what each has waiting and by who goes first; and who goes first then."""
        for zero, one, first in itertools.product((0, 1, 2, 32), (0, 1, 2, 32), (0, 1)):
            ready = outside.with_waiting(self.ready(), zero, EDIT)._replace(limit=32, first=first)
            ready = outside.with_waiting(ready, one, OTHER, desk=1)
            result = turns.turn(ready)
            after = result.station
            if zero == one == 0:
                self.assertEqual((result.started_body, after.first), (NEUTRAL, first))
                continue
            desk = first if zero and one else int(one > 0)
            self.assertEqual(result.started_body, (EDIT, OTHER)[desk])
            self.assertEqual(after.first, 1 - desk)
            self.assertEqual((after.waiting.length, after.waiting_1.length),
                             (zero - (desk == 0), one - (desk == 1)))

    def test_desks_in_turn(self):
        """A station alone: desk 1 posts one edit and desk 0 three, which start as 0, 1, 0, 0."""
        alone = station.fresh(1, 0).station
        for event, desk in enumerate((1, 0, 0, 0), 1):
            alone = station.post(alone, Body(DROP, event, 0), desk).station
        events = []
        for _ in range(5):
            result = turns.turn(alone)
            alone = result.station
            events.append(result.started_body.event)
        self.assertEqual(events, [2, 1, 3, 4, 0])

    def test_empty_moves_nothing(self):
        """While the own lane is full Empty starts, and the same desk goes first."""
        for first in (0, 1):
            one = self.ready(own_lane=(EDIT,), waiting=(EDIT,))._replace(body=EDIT, first=first)
            result = turns.turn(one)
            self.assertEqual((result.started_body, result.station.first), (EMPTY, first))


if __name__ == "__main__":
    unittest.main()
