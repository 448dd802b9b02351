"""Frames: both round trips, damaged frames, and the refusals in order (document 01, "Frame bytes")."""

import random
import unittest

from model import frames, states
from model.bodies import EMPTY, INSERT, SHIFT, Body
from model.records import Record, pack, unpack
from model.states import labels

INSERT_7 = Body(INSERT, 7, 100)


def random_frame(rng):
    """N, a sender, its records and the frame."""
    n = rng.randint(1, 16)
    sender = rng.randrange(n)
    records = states.random_records(rng, n, sender)
    return n, sender, records, frames.frame_bytes(n, sender, records)


class RoundTrips(unittest.TestCase):
    def test_written_then_read(self):
        for seed in range(400):
            n, sender, records, data = random_frame(random.Random(seed))
            self.assertEqual(frames.read_frame(data), records, seed)
            for own in range(n):
                if own != sender:
                    self.assertEqual(frames.check_frame(data, n, own), 0, seed)

    def test_labels_from_n_up_are_written_0(self):
        record = Record(1, 2, INSERT_7, (1, 2) + (77,) * 14)
        data = frames.frame_bytes(2, 1, [record])
        self.assertEqual(frames.read_frame(data), [record._replace(labels=labels(1, 2))])

    def test_read_then_written(self):
        """Whatever the check accepts is written back byte for byte, damaged frames among them."""
        accepted = refused = 0
        for seed in range(3000):
            rng = random.Random(seed)
            n, sender, _, data = random_frame(rng)
            damaged = bytearray(data)
            for _ in range(rng.choice((0, 1, 1, 2))):
                at = rng.randrange(len(damaged))
                damaged[at] = rng.choice((rng.randrange(256), damaged[at] ^ 1 << rng.randrange(8)))
            if rng.random() < 0.1:
                damaged = damaged[:rng.randrange(len(damaged) + 1)]
            damaged = bytes(damaged)
            own = (sender + 1) % n
            if frames.check_frame(damaged, n, own) == 0:
                accepted += 1
                again = frames.frame_bytes(damaged[0], damaged[1], frames.read_frame(damaged))
                self.assertEqual(again, damaged, seed)
            else:
                refused += 1
        self.assertGreater(accepted, 500)
        self.assertGreater(refused, 500)

    def test_packing(self):
        for seed in range(200):
            rng = random.Random(seed)
            n = rng.randint(1, 16)
            some = states.random_labels(rng, n, high=False)
            self.assertEqual(unpack(pack(some[:n])), some)


class EveryByte(unittest.TestCase):
    """One frame, each of its bytes set to each value: exactly the listed values are accepted."""

    FRAME = frames.frame_bytes(2, 0, [Record(0, 0, INSERT_7, labels(1, 2)),
                                      Record(1, 1, EMPTY, labels(0, 1))])
    PAIR = {a + 4 * b for a in range(3) for b in range(3)}
    ANY = set(range(256))
    ACCEPTED = [
        {2}, {0}, {2}, {0},                          # N, sender, records, zero
        {0}, {0, 1, 2}, {INSERT, SHIFT}, {0},        # station, count, kind, zero
        ANY - {0}, ANY, ANY, set(range(6)),          # event, up to 99,999,999
        ANY, ANY, set(range(42)), {0},               # start, up to 2,699,999
        PAIR, {0}, {0}, {0},                         # labels
        {1}, {0, 1, 2}, {0, 1}, {0},                 # station, count, Empty or Neutral, zero
        {0}, {0}, {0}, {0}, {0}, {0}, {0}, {0},      # no event, no argument
        PAIR, {0}, {0}, {0},
    ]

    def test_every_byte(self):
        self.assertEqual(len(self.ACCEPTED), len(self.FRAME))
        for at, values in enumerate(self.ACCEPTED):
            damaged = bytearray(self.FRAME)
            accepted = set()
            for value in range(256):
                damaged[at] = value
                if frames.check_frame(bytes(damaged), 2, 1) == 0:
                    accepted.add(value)
            self.assertEqual(accepted, values, f"byte {at}")


class Refusals(unittest.TestCase):
    def setUp(self):
        self.records = [Record(0, 0, EMPTY, labels(1)),
                        Record(1, 4, Body(SHIFT, 9, -90_000), labels(0, 2)),
                        Record(2, 0, INSERT_7, labels(2, 1, 1))]

    def check(self, data, n=3, own=0):
        return frames.check_frame(bytes(data), n, own)

    def frame(self, n=3, sender=1, **changes):
        """A frame of three stations; changes are of record 1."""
        records = list(self.records)
        records[1] = records[1]._replace(**changes)
        return bytearray(frames.frame_bytes(n, sender, records))

    def test_accepted(self):
        self.assertEqual(self.check(self.frame()), 0)
        self.assertEqual(self.check(self.frame(), own=2), 0)

    def test_1(self):
        for n, own in ((0, 0), (17, 0), (255, 0), (3, 3), (3, 255), (1, 1), (16, 16)):
            self.assertEqual(self.check(self.frame(), n, own), 1)
            self.assertEqual(self.check(b"", n, own), 1)

    def test_5(self):
        good = self.frame()
        for length in range(len(good)):
            self.assertEqual(self.check(good[:length]), 5)
        self.assertEqual(self.check(good + b"\0"), 5)
        self.assertEqual(self.check(good + bytes(16)), 5)
        self.assertEqual(self.check(bytes([3, 1, 0, 0])), 5)
        self.assertEqual(self.check(bytes([3, 1, 17, 0]) + bytes(16 * 17)), 5)
        for value in range(2, 256):
            good[3] = value
            self.assertEqual(self.check(good), 5)

    def test_6(self):
        self.assertEqual(self.check(self.frame(), n=4), 6)
        self.assertEqual(self.check(self.frame(), own=1), 6)
        self.assertEqual(self.check(self.frame(sender=3)), 6)
        self.assertEqual(self.check(self.frame(sender=255)), 6)
        self.assertEqual(self.check(self.frame(n=2)), 6)

    def test_7(self):
        sender_missing = frames.frame_bytes(3, 1, [self.records[0], self.records[2]])
        twice = frames.frame_bytes(3, 1, [self.records[1], self.records[1]])
        descending = frames.frame_bytes(3, 1, [self.records[2], self.records[1]])
        not_below_n = frames.frame_bytes(
            3, 1, [self.records[1], self.records[2]._replace(station=3)])
        for data in (sender_missing, twice, descending, not_below_n):
            self.assertEqual(self.check(data), 7)
        for changes in (dict(count=5), dict(count=255),
                        dict(body=Body(SHIFT, 9, -90_001)), dict(body=Body(SHIFT, 9, 90_001)),
                        dict(body=Body(INSERT, 9, 2_700_000)), dict(body=Body(INSERT, 9, -1)),
                        dict(body=Body(INSERT, 0, 0)), dict(body=Body(INSERT, 100_000_000, 0)),
                        dict(body=Body(3, 9, 1)), dict(body=Body(1, 1, 0)),
                        dict(body=Body(0, 0, 1)), dict(body=Body(5, 0, 0)),
                        dict(body=Body(255, 1, 0)), dict(labels=labels(3)),
                        dict(labels=labels(0, 3)), dict(labels=labels(0, 0, 3))):
            self.assertEqual(self.check(self.frame(**changes)), 7, changes)
        for label in (1, 2, 3):
            for k in range(3, 16):
                data = self.frame()
                data[20 + 12 + k // 4] |= label << 2 * (k % 4)
                self.assertEqual(self.check(data), 7, (label, k))
        data = self.frame()
        data[20 + 3] = 1
        self.assertEqual(self.check(data), 7)

    def test_order(self):
        """5 before 6 before 7, each with the later ones also broken."""
        data = self.frame(count=255, sender=3)
        self.assertEqual(self.check(data), 6)
        self.assertEqual(self.check(data + b"\0"), 5)
        self.assertEqual(self.check(data + b"\0", n=0), 1)

    def test_one_station_hears_no_frame(self):
        """With N = 1 every sender is the hearer itself or not below N."""
        for sender in range(256):
            self.assertEqual(self.check(bytes([1, sender, 1, 0]) + bytes(16), n=1), 6)


if __name__ == "__main__":
    unittest.main()
