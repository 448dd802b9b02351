"""Writes frames with the model's answers, for tests/host/check_frames.c to compare with those of the archive.

usage: python3 tests/host/frames.py > FILE
A case is five numbers of four bytes, the lowest first (length, N, own number, edition, answer), and then the bytes.
"""

import random
import sys
from pathlib import Path

sys.path.insert(0, str(Path(__file__).resolve().parents[1]))

from model import frames, states  # noqa: E402
from model.bodies import EMPTY, NEUTRAL  # noqa: E402
from model.records import Record  # noqa: E402


def valid_frame(rng, n, edition=0):
    """A sender and a frame of a random part of the table of one of n stations."""
    sender = rng.randrange(n)
    return sender, frames.frame_bytes(n, sender, states.random_records(rng, n, sender, edition), edition)


def full_frame(rng, n, edition):
    """A frame with a record of every station."""
    while True:
        sender, data = valid_frame(rng, n, edition)
        if data[2] == n:
            return sender, data


def owns(n):
    """Every own number below n, one that is not, and a large one."""
    return [*range(n), n, 2 ** 32 - 1]


def valid_cases(rng):
    for case in range(400):
        n, edition = rng.randint(1, 16), case % 2
        sender, data = valid_frame(rng, n, edition)
        for own in owns(n):
            yield data, n, own, edition
        for other in (0, n - 1, n + 1, 17, 256, 256 + n, 2 ** 32 - 1):
            yield data, other, rng.randrange(n), edition
        for other in (1 - edition, 2, 255, 256, 256 + edition, 2 ** 32 - 1):
            yield data, n, (sender + 1) % n, other
            yield data, n, n, other


def channel_cases(rng):
    """Every value of a record's fourth byte and of the frame's, of each kind, in both editions."""
    for edition in (0, 1):
        for body in (EMPTY, NEUTRAL, *(states.random_of_kind(rng, kind, edition) for kind in (2, 3, 4))):
            records = [Record(0, 0, states.random_body(rng, edition), (0,) * 16), Record(2, 0, body, (0,) * 16)]
            data = frames.frame_bytes(3, 2, records, edition)
            for at in (3, 4 + 16 + 3):
                for value in range(256):
                    for how in (0, 1):
                        yield data[:at] + bytes([value]) + data[at + 1:], 3, 1, how


def changed_cases(rng):
    """Every byte of some frames, changed to every other value near a limit and to some others."""
    for n, edition in ((2, 0), (3, 0), (5, 0), (16, 0), (2, 1), (3, 1), (5, 1), (16, 1)):
        sender, data = full_frame(rng, n, edition) if n < 16 else valid_frame(rng, n, edition)
        own = (sender + 1) % n
        for at, byte in enumerate(data):
            values = {0, 1, 2, 3, 4, 5, 15, 16, 17, 127, 128, 200, 201, 255, byte ^ 1, byte ^ 64, (byte + 1) % 256, (byte - 1) % 256, rng.randrange(256)}
            for value in sorted(values):
                yield data[:at] + bytes([value]) + data[at + 1:], n, own, edition


def length_cases(rng):
    """Every length from 0 to 300: frames cut short, frames with more after them, and other bytes."""
    sender, data = valid_frame(rng, 16)
    for length in range(301):
        tail = bytes(rng.randrange(256) for _ in range(300))
        yield (data + tail)[:length], 16, (sender + 1) % 16, 0
        yield (data + bytes(300))[:length], 16, (sender + 1) % 16, 0
        right = bytes([3, 1, max(0, length - 4) // 16 % 256, 0])
        yield (right + tail)[:length], 3, 0, 0
    for count in range(0, 20):
        yield bytes([16, 0, count, 0]) + bytes(16 * count), 16, 1, 0


def random_cases(rng):
    for _ in range(6000):
        data = bytes(rng.randrange(256) for _ in range(rng.randrange(300)))
        n = rng.randrange(20)
        yield data, n, rng.randrange(20), rng.choice((0, 0, 1, 2))
    for _ in range(6000):
        n, edition = rng.randint(1, 16), rng.randrange(2)
        count = rng.randint(1, n)
        head = bytes([n, rng.randrange(n), count, edition])
        records = b""
        for k in range(count):
            body = rng.choice([(0, 0, 0), (1, 0, 0), (2, 99_999_999, 2_699_999), (2, 1, 2_700_000), (3, 100_000_000, 0), (3, 5, 1),
                               (4, 9, -90_000), (4, 9, -90_001), (4, 9, 90_000), (4, 9, 90_001), (4, 0, 1), (5, 1, 0)])
            labels = sum(rng.choice([0, 1, 2, 2, 1, 0, rng.randrange(4)]) << (2 * j) for j in range(n + rng.choice([0, 0, 0, 1])))
            records += bytes([k, rng.choice([0, 2 * (n - 1), rng.choice([2 * n - 1, 0])]), body[0], rng.choice([0, 0, 0, 0, 0, 0, 0, 1] if edition == 0 or body[0] < 2 else [1, 200, 77, 9, 0, 201, 200, 1])])
            records += body[1].to_bytes(4, "little") + body[2].to_bytes(4, "little", signed=True) + (labels % 2 ** 32).to_bytes(4, "little")
        yield head + records, n, rng.randrange(n), edition


def main():
    rng = random.Random(2026)
    out = sys.stdout.buffer
    for cases in (valid_cases, channel_cases, changed_cases, length_cases, random_cases):
        for data, *how in cases(rng):
            for number in (len(data), *how, frames.check_frame(data, *how)):
                out.write(number.to_bytes(4, "little"))
            out.write(data)


if __name__ == "__main__":
    main()
