"""Scripts for the listing program, each from a seed."""

import random

from model import load
from model.scripts import LINK_FORMS, Shape, field, seeded_calls, script_of, seeded_script
from program.damaged import damaged

LETTERS = b"NPRRRPPnpr \x00\xff"


def bytes_of(rng):
    """Any bytes; bytes that scripts are made of; lines that are nearly right; damaged scripts."""
    kind = rng.randrange(16)
    if kind == 0:
        return rng.randbytes(rng.randrange(400))
    if kind == 1:
        return bytes(rng.choices(b"NPR0123456789 -\n\n", k=rng.randrange(400)))
    if kind == 2:
        return bytes(rng.choices(b"NPR0123456789 -\n\n", k=10)) + rng.randbytes(rng.randrange(5_000))
    n = rng.randint(1, 16)
    if kind < 8:
        return b"N" + field(n) + b"\n" + b"".join(nearly_a_line(rng, n) for _ in range(rng.randrange(12)))
    script = seeded_script(rng.randrange(10 ** 9), Shape(rng.randint(1, 6), rng.randint(1, 12), 0.7, 1.0))
    for _ in range(rng.choice((1, 1, 1, 2, 4))):
        script = damaged(rng, script)
    return script


def nearly_a_line(rng, n):
    """Often a good line, or one with a number or a length that is wrong."""
    letter = bytes([rng.choice(LETTERS if rng.random() < 0.1 else b"RP")])
    count = {b"P": 4, b"R": n}.get(letter, 1) + rng.choice((0,) * 20 + (-1, 1))
    fields = []
    for at in range(max(0, count)):
        largest = 65_535 if letter == b"R" else (n, 5, 99_999_999, 90_001)[min(at, 3)]
        number = rng.choice((0, 1, largest, rng.randint(0, largest), rng.randint(0, largest)))
        if rng.random() < 0.01:
            number = rng.choice((65_536, 999_999_999, -1, -number, 2 ** 16 + 1))
        fields.append(field(number) if rng.random() < 0.995 else (b"%0*d" % (rng.randrange(10), number)).rjust(9)[:9])
    return letter + b"".join(fields) + rng.choice((b"\n",) * 60 + (b"\r\n", b"", b" \n"))


def any_scripts(seed, count):
    rng = random.Random(f"bytes {seed}")
    for number in range(count):
        yield f"{number} of seed {seed}", bytes_of(rng)


def long_runs(seed, count, rounds):
    """Runs of sixteen stations, with sparse and dense links, few posts and many."""
    rng = random.Random(f"runs {seed}")
    for number in range(count):
        shape = Shape(16, rounds, (0.05, 1.0, 0.15, 0.5)[number % 4], rng.choice((0.3, 1.0, 3.0)),
                      rng.choice(LINK_FORMS) if number % 4 > 1 else "random")
        n, calls = seeded_calls(f"{seed} {number}", shape)
        yield f"run {number} of seed {seed}", script_of(n, calls)


def loads(seed, count, rounds):
    """Scripts that ./relay load writes as well; the name of one is the command that repeats it anywhere."""
    rng = random.Random(f"loads {seed}")
    for number in range(count):
        first, n = rng.getrandbits(32), (16, 2, 5, 1)[number % 4]
        yield f"./relay load {first} {n} {rounds}", load.script(first, n, rounds)
