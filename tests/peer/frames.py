"""Frame checks, in Rust and in C."""

import random

from model import frames, states

from . import built
from .compare import agree

FRAMES = 6000


def compare():
    cases = [(case, frames.check_frame(*case)) for case in map(some_frame, range(FRAMES))]
    agree("frames", [("refusals met", {0, 1, 5, 6, 7, 17}, {refusal for _, refusal in cases})])
    for name, check in built.frame_checks():
        agree(f"frame check in {name}", [(f"{data.hex()} {how}", refusal, check(data, *how)) for (data, *how), refusal in cases])


def some_frame(seed):
    """A frame, perhaps damaged, with N, own number and edition, perhaps wrong ones."""
    rng = random.Random(f"frame {seed}")
    n, edition = rng.randint(1, 16), rng.randrange(2)
    sender = rng.randrange(n)
    data = bytearray(frames.frame_bytes(n, sender, states.random_records(rng, n, sender, edition), edition))
    for _ in range(rng.choice((0, 0, 1, 1, 2))):
        at = rng.choice((rng.randrange(len(data)), rng.randrange(20)))
        data[at] = rng.choice((rng.randrange(256), data[at] ^ 1 << rng.randrange(8), data[at] + 1 & 255))
    if rng.random() < 0.1:
        data = data[:rng.randrange(len(data) + 1)] + bytes(rng.choice((0, 0, 1, 16)))
    own = rng.choice((sender, (sender + 1) % n, (sender + 1) % n, rng.randrange(n)))
    if rng.random() < 0.1:
        n, own = rng.choice(((0, 0), (17, 0), (n, n), (n, 2**32 - 1), (2**32 - 1, 0), (n % 16 + 1, 0)))
    if rng.random() < 0.1:
        edition = rng.choice((1 - edition, 2, 256 + edition, 2**32 - 1))
    return bytes(data), n, own, edition
