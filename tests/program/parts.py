"""Scripts given in parts, and scripts that end where a buffer may end."""

import functools
import itertools
import random

from model.malformed import GOOD_POST, GOOD_ROUND, N2
from model.scripts import script_line, seeded_script

from . import command, named

SMALL_PARTS = (1, 2, 3, 7, 10, 11, 146)
PARTS = (4_095, 4_096, 4_097, 65_535, 65_536, 65_537)
LENGTHS = (4_095, 4_096, 4_097, 8_192, 16_384, 65_535, 65_536, 65_537, 131_072)


def long_script():
    """Some 90,000 bytes: rounds and refused posts, so that line ends fall in every place."""
    rng = random.Random("parts")
    lines = [N2]
    for event in range(1, 1_000):
        lines.append(script_line(b"R", (rng.getrandbits(16), rng.getrandbits(16))))
        lines += [script_line(b"P", (rng.randrange(3), rng.choice((1, 3, 5)), event, rng.choice((0, -1)))) for _ in range(rng.randrange(4))]
    return b"".join(lines)


def script_of_length(length):
    """A script of just so many bytes: posts of 38, rounds of 11."""
    posts = next(count for count in range(length // 38, -1, -1) if (length - 11 - 38 * count) % 11 == 0 and 11 + 38 * count <= length)
    rounds = (length - 11 - 38 * posts) // 11
    return script_line(b"N", (1,)) + script_line(b"R", (0,)) * rounds + script_line(b"P", (0, 3, 1, 1)) * posts


def given_in(sizes):
    return functools.partial(command.in_parts, sizes=sizes)


def given_by(size):
    """How a script is given in parts of one size."""
    return given_in(itertools.repeat(size))


def scripts():
    """Name, script and how it is given."""
    short = dict(named.examples())
    short["a script of 16 stations"] = seeded_script(15)[:3_000]
    short["a last line without its line end"] = N2 + GOOD_ROUND + GOOD_POST[:-1]
    short["a malformed line before others"] = N2 + GOOD_ROUND + b"R" * 200 + b"\n" + GOOD_ROUND * 20
    long = long_script()
    for size in SMALL_PARTS:
        for name, script in short.items():
            yield f"{name} in parts of {size}", script, given_by(size)
    for size in PARTS:
        yield f"a long script in parts of {size}", long, given_by(size)
    for seed in range(4):
        yield f"a long script in parts drawn from seed {seed}", long, given_in(drawn_sizes(seed))


def drawn_sizes(seed):
    rng = random.Random(f"sizes {seed}")
    while True:
        yield rng.choice((1, rng.randint(1, 50), rng.randint(1, 8_000), 4_096))


def lengths():
    """Scripts whose end falls on and about the sizes that buffers have, with their last line whole and without its end."""
    for length in LENGTHS:
        script = script_of_length(length)
        yield f"{length} bytes", script
        yield f"{length} bytes without the last", script[:-1]
        yield f"{length} bytes and one more", script + b"R"
