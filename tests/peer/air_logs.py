"""Comparisons of air logs."""

import random

from library import listings
from model import air_logs

from . import built
from .compare import agree


def cases(rng):
    for _ in range(400):
        p, q = rng.randrange(17), rng.randrange(16)
        edits = [listings.edit(rng) for _ in range(rng.randrange(8))]
        yield listings.written(rng, edits, p), p, listings.written(rng, listings.changed(rng, edits), q), q
    text = listings.NARROW + listings.WIDE + listings.END
    for at in range(len(text)):
        for byte in listings.CLASSES:
            yield text[:at] + bytes([byte]) + text[at + 1:], 1, text, 1
        yield text, 1, text[:at], 1
    for at, width in listings.FIELDS:
        for filled in listings.fillings(rng, width):
            yield listings.WIDE[:at] + filled + listings.WIDE[at + width:] + listings.END, 1, text, 1


def compare():
    found = []
    for case in cases(random.Random("air logs")):
        found.append((str(case), air_logs.compare(*case), built.compare(*case)))
    agree("air logs", [("refusals met", {0, 1, 16}, {expected[0] for _, expected, _ in found}), *found])
