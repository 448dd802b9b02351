"""A script of posts and rounds drawn from a seed.

Equal seeds, sizes and numbers of rounds give equal scripts everywhere, so two
sites can run the same traffic. SEED is 0 to 4,294,967,295, N 1 to 16 and
ROUNDS 0 to 999,999. The script is written as it is drawn, in constant memory.

example:
    ./relay load 2026 5 40 | ./relay listing -
"""

import argparse
import sys
import time
from array import array

from . import library
from .faults import Wrong

LARGEST = 4_294_967_295
ENOUGH = 754  # bytes that hold what any call writes
SHARE = 512  # calls between two looks at the clock
REFUSALS = {1: "N must be 1 to 16 and ROUNDS 0 to 999,999"}


def number(text):
    """A number of 32 bits, as the library takes it."""
    if not (text.isascii() and text.isdigit()) or int(text) > LARGEST:
        raise argparse.ArgumentTypeError(f"{text!r} is no number from 0 to {LARGEST:,}")
    return int(text)


def arguments(parser):
    parser.add_argument("seed", type=number, metavar="SEED", help="where the draws begin")
    parser.add_argument("n", type=number, metavar="N", help="the number of stations")
    parser.add_argument("rounds", type=number, metavar="ROUNDS", help="the number of rounds")


class Progress:
    """Rounds done, on a terminal that does not get the script itself."""

    def __init__(self, rounds):
        self.rounds, self.told = rounds, 0
        self.wanted = sys.stderr.isatty() and not sys.stdout.isatty()

    def tell(self, done):
        if self.wanted and (done == self.rounds or time.monotonic() - self.told > 0.2):
            self.told = time.monotonic()
            end = "\n" if done == self.rounds else ""
            print(f"\r{done:,} of {self.rounds:,} rounds", end=end, file=sys.stderr, flush=True)


def parts(state, n, rounds):
    """The script, call by call."""
    buffer = array("B", bytes(ENOUGH))
    for done in range(rounds + 1):
        due = rounds - max(0, done - 1)
        refusal, (length, state) = library.load(state, n, due, done == 0, buffer)
        if refusal:
            raise Wrong(f"refused with {refusal}: {REFUSALS.get(refusal, 'unexpected')}")
        yield buffer[:length].tobytes()


def run(given):
    progress = Progress(given.rounds)
    held = []
    for done, text in enumerate(parts(given.seed, given.n, given.rounds)):
        held.append(text)
        if len(held) == SHARE or done == given.rounds:
            sys.stdout.buffer.write(b"".join(held))
            held.clear()
            progress.tell(done)
    sys.stdout.buffer.flush()
