"""Listings for the comparison of air logs: of drawn scripts, of drawn edits, and the bytes that damage them."""

import itertools

from model import listing, load

END = b"END\n"
WIDE = b"999999 A  1 15 4 99999999   -90000\n"      # a line of station 1
NARROW = b"     1 A  1  0 2        7        0\n"
FIELDS = (0, 6), (8, 3), (11, 3), (14, 2), (16, 9), (25, 9)   # where the numbers of a line stand
CLASSES = b" -0159\n\r\t+.:/ADEXaNB\x00\x0b\x1f!@\x7f\x80\xb0\xff"  # bytes of every class, and those beside them
SHORT = b" -059\n"


def script(rng, n, rounds):
    """A generated script in which every third mask hears everyone, so that much is aired."""
    lines = load.script(rng.getrandbits(32), n, rounds).splitlines(keepends=True)
    return b"".join(lines[:1] + [b"R" + b"    65535" * n + b"\n" if line[:1] == b"R" and rng.random() < 0.6 else line
                                 for line in lines[1:]])


def drawn(rng):
    """A true listing."""
    return listing.listing(script(rng, rng.choice((1, 2, 3, 4)), rng.randrange(1, 30)))


def edit(rng):
    """Source, kind, event and argument."""
    kind = rng.choice((2, 3, 4))
    argument = rng.choice((0, 5, 90_000)) * (-1 if kind == 4 else 1)
    return rng.randrange(16), kind, rng.choice((1, 7, 99_999_999)), argument


def changed(rng, edits):
    """One more edit, one less, or one with another number."""
    edits, at = list(edits), rng.randrange(len(edits) + 1)
    if at == len(edits) or rng.random() < 0.2:
        return edits + [edit(rng)]
    if rng.random() < 0.2:
        return edits[:at]
    numbers, place = list(edits[at]), rng.randrange(4)
    numbers[place] = (numbers[place] + 1) % (16, 10, 100_000_000, 90_001)[place]
    edits[at] = tuple(numbers)
    return edits


def written(rng, edits, station):
    """A listing in which these are the edits that a station aired, between other lines."""
    lines, rounds = [], 0
    for one in edits:
        rounds += rng.randrange(3)
        for _ in range(rng.choice((0, 0, 1, 3))):
            letter, other = rng.choice((b"D", b"E", b"X", b"A")), rng.randrange(17)
            if (letter, other) != (b"A", station):
                lines.append(line(rounds, letter, other, edit(rng)))
        lines.append(line(rounds, b"A", station, one))
    return b"".join(lines) + END


def line(rounds, letter, station, numbers):
    source, kind, event, argument = numbers
    return b"%6d %s%3d%3d%2d%9d%9d\n" % (rounds, letter, station, source, kind, event, argument)


def fillings(rng, width):
    """All fillings of narrow columns with some bytes; of wide ones those with few changes of class, and drawn ones."""
    if width <= 3:
        yield from map(bytes, itertools.product(SHORT, repeat=width))
    for blanks in range(width + 1):
        for sign in (b"", b"-", b"--", b"0", b"-0", b"+"):
            for digit in (b"0", b"1", b"9"):
                filled = (b" " * blanks + sign).ljust(width, digit)
                yield filled[:width]
                yield filled[:width - 1] + b" "
    for _ in range(300):
        yield bytes(rng.choice(SHORT) for _ in range(width))
