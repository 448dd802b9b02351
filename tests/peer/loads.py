"""Calls of the load generator."""

import random
from array import array

from model import load

from . import built
from .compare import agree


def cases(rng):
    for n in (0, *range(1, 17), 17, 0xFFFF_FFFF):
        for due in (0, 1, 999_999, 1_000_000):
            for head in (0, 1, 256):
                for room in (0, 10, 11, 9 * n % 1_000 + 1, 9 * n % 1_000 + 2, 200, 754):
                    yield rng.getrandbits(32), n, due, head, room, rng.choice((2, 2, 2, 0, 1, 5))


def compare():
    rng = random.Random("loads")
    found = []
    for state, n, due, head, room, count in cases(rng):
        buffer = array("B", rng.randbytes(room))
        places = array("I", [rng.getrandbits(32) for _ in range(count)])
        refusal, after = load.call(state, n, due, head, list(buffer), list(places))
        expected = (refusal, *map(list, after))
        got = built.load(state, n, due, head, buffer, places)
        name = f"{state} {n} {due} {head}, {room} bytes, {count} places"
        found.append((name, expected, (got, list(buffer), list(places))))
    agree("loads", [("refusals met", {0, 1, 9}, {expected[0] for _, expected, _ in found}), *found])
