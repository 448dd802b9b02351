"""The rounds of the ends in a part of a plan.

The library tells how many broadcasts of a station end up to a round and in which round the last does, and answers in
which round each starts. A broadcast ends by the rounds after its start alone. So what is asked about is the plan from
an end of the station on, for some rounds: that takes a fraction of the time, and after an edit most of these parts of
the plan are what they were. The library's forecast of the whole plan judges what is found: it has the same number of
ends in the part, and the same last one.
"""

from array import array

from . import library
from .faults import Wrong

GRID = 128      # rounds; where everybody hears everybody a page of 64 questions asks for all ends in so many


def first_ends(n, masks, station):
    """The rounds, from 1 on, of a station's first ends in some rounds, before which it starts a broadcast; 64 at most.

    The masks of the rounds are bytes, so that answers can be kept by them.
    """
    log = array("H", masks)
    asked = [(station, station, 2 + at) for at in range(min(library.MOST_QUESTIONS, len(log) // n))]
    return [number for number in library.questions(n, log, asked)[1] if number is not None]


def in_part(n, log, first, last, stations, forecast=library.forecast, found_first=first_ends):
    """The number of each station's ends before round `first`, and, by station, the rounds of those up to round `last`.

    The log is one that the library accepts, and the part lies in it. `forecast` and `found_first` ask the library, or
    keep what it answered.
    """
    before, starts = forecast(n, log[:n * (first - 1)])[1]
    log = log[:n * last]
    until, latest = forecast(n, log)[1]
    found = {station: of_station(n, log, station, starts[station], until[station] - before[station], found_first)
             for station in stations}
    for station, rounds in found.items():
        if rounds and rounds[-1] != latest[station]:
            raise Wrong(f"the ends of station {station} were found up to round {rounds[-1]}, "
                        f"but the library's last is in round {latest[station]}")
    return before[:n], found


def of_station(n, log, station, start, count, found_first):
    """The rounds of so many ends after a round, in which the station starts a broadcast."""
    found, rounds, step = [], len(log) // n, GRID
    while len(found) < count:
        # Up to a multiple of the grid: where a start is that of an earlier plan, so is the part. If nothing ends in it,
        # it is taken longer.
        until = min(rounds, start - start % GRID + step)
        more = found_first(n, log[n * start:n * until].tobytes(), station)
        if not more and until == rounds:
            break
        found += [start + number for number in more]
        start, step = (found[-1], GRID) if more else (start, 2 * step)
    if len(found) != count:
        raise Wrong(f"{len(found)} ends of station {station} were found where the library counts {count}")
    return found
