"""Whether two stations' air logs fit, from two listings.

Only A lines of the named station count, 0 to 15. Source, kind, event and
argument are compared; rounds may differ. Positions count from 1. A listing is
a file of any size; '-' is standard input, for one listing or as both. Where
the logs differ, the first different edit is shown from both sides.

exit status: 0 the logs fit: they are equal, or one begins the other; 3 they
differ; 1 a listing or a number is refused, which standard error explains

example:
    ./relay compare examples/evening.listing 0 examples/evening.listing 4
"""

import argparse
import itertools
import re

import progress

from . import library, listings, plans
from .faults import DIFFERENT, Wrong

LARGEST = 2 ** 32 - 1  # that the library can be asked
WORDS = {
    0: "equal",
    1: "first begins second: the second log goes on where the first ends",
    2: "second begins first: the first log goes on where the second ends",
}


def station(text):
    """A number of 32 bits; whether it is a station's, the library judges."""
    number = plans.number(text, LARGEST)
    if number is None:
        raise argparse.ArgumentTypeError(f"{text!r} is no station number, 0 to 15")
    return number


def arguments(parser):
    for which in ("first", "second"):
        parser.add_argument(which, metavar="LISTING", help=f"the {which} listing's file")
        parser.add_argument(f"{which}_station", metavar="STATION", type=station, help="the station of its log")


def refused(refusal, first, p, second, q):
    """What a refusal means."""
    if refusal == 16:
        bad = first if library.compare(first.lent, 0, first.lent, 0)[0] else second
        return Wrong(f"{plans.shown(bad.name)}, {bad.fault()} (refused with 16)")
    return Wrong(f"refused with {refusal}: a station is 0 to 15, not {p if p > 15 else q}")


def kept_line(listing, p, position):
    """The number and the text of the line with this position in a station's log."""
    found = re.finditer(rb"A%3d" % p, listing.memory)
    at = next(itertools.islice(found, position - 1, None)).start() // listings.LINE * listings.LINE
    return at // listings.LINE + 1, listing.text(at)


def run(given):
    first = listings.Listing(given.first)
    second = first if given.second == given.first else listings.Listing(given.second)
    p, q = given.first_station, given.second_station
    with progress.working(lambda: f"compare: {first.size + second.size:,} bytes"):
        refusal, (answer, position) = library.compare(first.lent, p, second.lent, q)
        if refusal:
            raise refused(refusal, first, p, second, q)
    if library.ANSWERS[answer] != "different":
        print(WORDS[answer])
        return 0
    print(f"different at edit {position}")
    for listing, number in ((first, p), (second, q)):
        line, text = kept_line(listing, number, position)
        print(f"{plans.shown(listing.name)}, line {line}: {text}")
    return DIFFERENT
