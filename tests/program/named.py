"""Scripts by name."""

import random

from model import malformed
from model.bodies import DROP, INSERT, KINDS, SHIFT
from model.malformed import GOOD_POST, GOOD_ROUND, N2
from model.scripts import Shape, script_line, seeded_script

from .command import ROOT

SEEDS = range(1000, 1096)  # four times the 24 sizes that model/scripts.py goes through
EVERYONE = 65_535


def size_line(n):
    return script_line(b"N", (n,))


def round_line(*masks):
    return script_line(b"R", masks)


def post_line(*numbers):
    return script_line(b"P", numbers)


def examples():
    for example in sorted((ROOT / "examples").glob("*.script")):
        yield example.name, example.read_bytes()


def malformed_forms():
    for name, script, _ in malformed.malformed_scripts():
        yield f"malformed, {name}", script
    for name, line in LONG_LINES.items():
        yield f"malformed, first line: {name}", line
        yield f"malformed, second line: {name}", N2 + line
        yield f"malformed, after two rounds: {name}", N2 + GOOD_ROUND + GOOD_POST + GOOD_ROUND + line + GOOD_ROUND
    for name, script in ANY_BYTES.items():
        yield f"malformed, {name}", script
        yield f"malformed, after a round: {name}", N2 + GOOD_ROUND + script


LONG_LINES = {
    "a round and 100,000 spaces": GOOD_ROUND[:-1] + b" " * 100_000 + b"\n",
    "a round with 100,000 spaces before it": b" " * 100_000 + GOOD_ROUND,
    "a round of 17 masks": round_line(*[0] * 17),
    "a round of 300 masks": round_line(*[0] * 300),
    "a round of 30,000 masks": round_line(*[0] * 30_000),
    "a post of 30,000 numbers": post_line(*[1] * 30_000),
    "a size with 100,000 zeros before it": b"N" + b"0" * 100_000 + b"2\n",
    "a mask of 1,000,000 digits": b"R" + b"9" * 1_000_000 + b"\n",
    "4,095 letters": b"R" * 4_095 + b"\n",
    "4,096 letters": b"R" * 4_096 + b"\n",
    "65,536 letters": b"N" * 65_536 + b"\n",
    "100,000 NULs": bytes(100_000) + b"\n",
    "1,000,000 letters without a line end": b"P" * 1_000_000,
}

ANY_BYTES = {
    "every byte once": bytes(range(256)),
    "every byte once, backwards": bytes(range(255, -1, -1)),
    "NUL alone": b"\x00",
    "high byte alone": b"\xff",
    "a line of high bytes": b"\xff" * 19 + b"\n",
    "a line of NULs": bytes(19) + b"\n",
    "carriage return alone": b"\r",
    "line ends of another kind": b"N        2\rR        2        1\r",
    "two bytes a letter": "N        2\n".encode("utf-16-le"),
    "a mark of byte order": b"\xef\xbb\xbfN        2\n",
    "digits of another writing": "N       \u0662\n".encode("utf-8"),
}


# Posts.

def bodies():
    """Bodies at and next to every limit of every kind, and with numbers that would fit once cut to fewer bits."""
    for kind in (INSERT, DROP, SHIFT):
        row = KINDS[kind]
        for event in (0, row.event_least, row.event_most, row.event_most + 1, 999_999_999):
            yield kind, event, row.argument_least
        for argument in (row.argument_least - 1, row.argument_least, row.argument_most, row.argument_most + 1,
                         -99_999_999, -1, 0, 1, 999_999_999):
            yield kind, row.event_least, argument
    for kind in (0, 1, 5, 6, 10, 255, 256, 257, 258, 259, 260, 65_538, 16_777_218, 999_999_999):
        yield kind, 0, 0
        yield kind, 1, 0


def posts(n):
    """Every body at the first and the last station and at one that is not there, some at others, and rounds in which the accepted ones travel."""
    everyone = round_line(*[EVERYONE] * n)
    for place in (0, n - 1, n):
        yield from (post_line(place, *body[:3]) for body in bodies())
        yield everyone
    for place in (*range(n), 16, 17, 255, 256, 257, 65_536, 16_777_216, 999_999_999):
        yield post_line(place, INSERT, 1, 0)
        yield post_line(place, INSERT, 0, 0)
    yield everyone * 3


def full_queue(n, rounds):
    """Queues filled and posted to when full, at every station, before any round and after each."""
    for place in range(n):
        yield from (post_line(place, INSERT, 1 + event, event) for event in range(34))
        yield post_line(place, 9, 9, 9)
    for number in range(rounds):
        yield round_line(*[EVERYONE] * n)
        yield post_line(number % n, DROP, 1000 + number, 0)
        yield post_line(number % n, SHIFT, 2000 + number, -number)


def silences(rng, n):
    """Some rounds among everyone, then long ones in which nobody hears anyone, and posts all the while."""
    events = iter(range(1, 10_000))
    for _ in range(3):
        for _ in range(4):
            yield post_line(rng.randrange(n), SHIFT, next(events), rng.randint(-90_000, 90_000))
            yield round_line(*[EVERYONE] * n)
        for _ in range(60):
            if rng.random() < 0.2:
                yield post_line(rng.randrange(n), INSERT, next(events), rng.randint(0, KINDS[INSERT].argument_most))
            yield round_line(*[0] * n)


def unread_bits(n):
    """In turn every bit that no one reads, alone, among silent stations and among stations that all hear each other."""
    read = (1 << n) - 1
    for bit in (1 << k for k in range(16)):
        yield round_line(*[bit if bit & ~read or bit == 1 << place else 0 for place in range(n)])
        yield round_line(*[read & ~(1 << place) | (bit & ~read) for place in range(n)])


def of_each_size():
    for n in range(1, 17):
        rng = random.Random(f"silences {n}")
        yield f"unread bits of {n}", size_line(n) + b"".join(unread_bits(n))
        if n < 6 or n in (8, 16):
            yield f"posts of {n}", size_line(n) + b"".join(posts(n))
            yield f"full queues of {n}", size_line(n) + b"".join(full_queue(n, 40 if n < 8 else 10))
            yield f"silences of {n}", size_line(n) + b"".join(silences(rng, n))


def of_seeds():
    for seed in SEEDS:
        yield f"script of seed {seed}", seeded_script(seed)
    for n, density in ((16, 1.0), (16, 0.03), (15, 0.3), (9, 1.0)):
        yield f"script of seed 1, {n} stations, links {density}", seeded_script(1, Shape(n, 40, density, 2.0))
