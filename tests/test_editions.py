"""Channels and editions of the model (document 02, A9)."""

import random
import unittest

from model import frames, group, hearing, outside, states, station, turns
from model.bodies import DROP, EMPTY, INSERT, KINDS, NEUTRAL, SHIFT, Body
from model.queues import CAPACITY
from model.records import PLACES, Record
from model.refusals import (BAD_DESK, BAD_EDITION, BAD_FRAME_ADDRESS, BAD_FRAME_SHAPE, BAD_LIMIT, BAD_NUMBER, BAD_RECORD, CONFLICT, DONE,
                            NOT_AN_EDIT, OUTSIDE_LIMITS, QUEUE_FULL)

EDITS = {kind: Body(kind, KINDS[kind].event_most, KINDS[kind].argument_least) for kind in (INSERT, DROP, SHIFT)}


def right(edition, channel):
    return 1 <= channel <= 200 if edition else channel == 0


class Fresh(unittest.TestCase):
    def test_order(self):
        """1, 13, 17."""
        for edition in (2, 3, 255, 256, 2 ** 32 - 1):
            self.assertEqual(station.fresh(0, 0, 0, edition).refusal, BAD_NUMBER)
            self.assertEqual(station.fresh(2, 0, 0, edition).refusal, BAD_LIMIT)
            self.assertEqual(station.fresh(2, 0, 8, edition), (BAD_EDITION, station.lone_state()))
            self.assertEqual(group.fresh(17, 0, edition).refusal, BAD_NUMBER)
            self.assertEqual(group.fresh(2, 33, edition).refusal, BAD_LIMIT)
            self.assertEqual(group.fresh(2, 8, edition), (BAD_EDITION, group.lone_group_state()))

    def test_kept(self):
        for edition in (0, 1):
            self.assertEqual(station.fresh(3, 1, 8, edition).station.edition, edition)
            fresh = group.fresh(3, 8, edition).group
            self.assertEqual([one.edition for one in fresh], [edition] * 3 + [0] * (PLACES - 3))
            after = group.round_of(fresh, (7,) * 3 + (0,) * 13).group
            self.assertEqual([one.edition for one in after], [one.edition for one in fresh])


class Posts(unittest.TestCase):
    def test_every_channel(self):
        for edition in (0, 1):
            fresh = station.fresh(2, 0, 8, edition).station
            for edit in EDITS.values():
                for channel in (*range(260), 2 ** 32 - 1):
                    refusal = station.post(fresh, edit._replace(channel=channel), 1).refusal
                    self.assertEqual(refusal, DONE if right(edition, channel) else BAD_EDITION, (edition, channel))

    def test_order(self):
        """2, 15, 4, 17, 3."""
        for edition, channel in ((0, 1), (0, 200), (1, 0), (1, 201)):
            full = station.fresh(2, 0, 1, edition).station
            full = station.post(full, Body(DROP, 1, 0, edition), 0).station
            wrong = Body(DROP, 1, 0, channel)
            self.assertEqual(station.post(full._replace(edition=2), Body(DROP, 0, 0, channel), 2).refusal, OUTSIDE_LIMITS)
            self.assertEqual(station.post(full, Body(DROP, 0, 0, channel), 2).refusal, BAD_DESK)
            self.assertEqual(station.post(full, Body(DROP, 0, 0, channel), 0).refusal, NOT_AN_EDIT)
            self.assertEqual(station.post(full, Body(1, 0, 0, channel), 0).refusal, NOT_AN_EDIT)
            self.assertEqual(station.post(full, wrong, 0).refusal, BAD_EDITION)
            self.assertEqual(station.post(full, wrong._replace(channel=edition), 0).refusal, QUEUE_FULL)


class Frames(unittest.TestCase):
    def test_every_byte(self):
        """Byte 3 of a frame and of a record, of each kind, in both editions."""
        for edition in (0, 1):
            for body in (EMPTY, NEUTRAL, *(edit._replace(channel=edition) for edit in EDITS.values())):
                data = frames.frame_bytes(2, 1, [Record(1, 0, body, (0,) * PLACES)], edition)
                self.assertEqual(frames.check_frame(data, 2, 0, edition), DONE)
                for value in range(256):
                    head = data[:3] + bytes([value]) + data[4:]
                    wanted = BAD_FRAME_SHAPE if value > 1 else BAD_FRAME_ADDRESS if value != edition else DONE
                    self.assertEqual(frames.check_frame(head, 2, 0, edition), wanted)
                    fits = right(edition, value) if body.kind in EDITS else value == 0
                    self.assertEqual(frames.check_frame(data[:7] + bytes([value]) + data[8:], 2, 0, edition), DONE if fits else BAD_RECORD)

    def test_order(self):
        """1, 17, 5."""
        self.assertEqual(frames.check_frame(b"", 2, 2, 2), BAD_NUMBER)
        self.assertEqual(frames.check_frame(b"", 2, 0, 2), BAD_EDITION)
        self.assertEqual(frames.check_frame(b"", 2, 0, 1), BAD_FRAME_SHAPE)

    def test_old_receivers(self):
        """To a receiver that asks for a zero in byte 3, no frame of edition 1 has the shape of one."""
        for rng, s in states.some_stations(200, least_n=2):
            data = states.some_frame(rng, s)
            self.assertEqual(frames.check_frame(data, s.n, s.own, s.edition), DONE)
            self.assertEqual(data[3] != 0, s.edition == 1)
            self.assertEqual(frames.check_frame(data, s.n, s.own, 1 - s.edition), BAD_FRAME_ADDRESS)


class Held(unittest.TestCase):
    def test_outside(self):
        """2 from every call where a channel is none of the edition, wherever it stands, and in an edition that is none."""
        for edition in (0, 1):
            s = states.random_station(random.Random(f"held {edition}"), 5, 2, edition)
            self.assertTrue(station.in_limits(s))
            for name, broken in outside.editions_outside(s).items():
                self.assertEqual([station.post(broken, EDITS[DROP], 0).refusal, station.write_frame(broken, bytes(300)).refusal,
                                  hearing.hear(broken, b"").refusal, turns.turn(broken).refusal], [OUTSIDE_LIMITS] * 4, name)

    def test_mixed_groups(self):
        for n in (2, 3, 16):
            for edition in (0, 1):
                fresh = group.fresh(n, 8, edition).group
                for place in range(n):
                    mixed = fresh[:place] + (fresh[place]._replace(edition=1 - edition),) + fresh[place + 1:]
                    self.assertEqual(group.post(mixed, 0, EDITS[DROP]).refusal, OUTSIDE_LIMITS)
                    self.assertEqual(group.round_of(mixed, (0,) * PLACES).refusal, OUTSIDE_LIMITS)

    def test_channel_conflicts(self):
        """Records that differ in the channel alone."""
        s = station.fresh(2, 0, 8, 1).station
        first, second = (frames.frame_bytes(2, 1, [Record(1, 0, Body(DROP, 1, 0, channel), (0, 1) + (0,) * 14)], 1) for channel in (1, 2))
        heard = hearing.hear(s, first)
        self.assertEqual(heard.refusal, DONE)
        self.assertEqual(hearing.hear(heard.station, first).refusal, DONE)
        self.assertEqual(hearing.hear(heard.station, second).refusal, CONFLICT)

    def test_channel_is_aired(self):
        s = station.fresh(1, 0, CAPACITY, 1).station
        for channel in range(1, 201):
            s = station.post(s, Body(DROP, 7, 0, channel), channel % 2).station
            started = turns.turn(s)
            aired = turns.turn(started.station)
            self.assertEqual((started.started_body.channel, aired.row[0].channel, aired.ended_body.channel), (channel,) * 3)
            s = turns.turn(aired.station).station


if __name__ == "__main__":
    unittest.main()
