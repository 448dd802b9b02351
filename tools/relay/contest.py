"""The link contest: who can force the result, and by which pick?

The keeper picks a set of masks for each odd round, the breaker for each even
one, and both know the rounds before. The file, # begins a comment:
    stations 3       N
    keep 0           the station; the keeper wants its first broadcast to end
    rounds 4
    set 6 1 1        N masks as in a plan; sets are numbered from 0
--play lets you play the losing side against the proved answer.

example:
    ./relay contest examples/three-stations.contest
"""

import functools
import sys
from array import array
from typing import NamedTuple

from . import library, plans
from .faults import Misused, Wrong

LARGEST, LARGEST_MASK = 2 ** 32 - 1, 65_535
SIDES = "breaker", "keeper"


class Contest(NamedTuple):
    name: str
    n: int
    station: int
    rounds: int
    sets: list       # of N masks each


def arguments(parser):
    parser.add_argument("contest", metavar="FILE", help="the contest's file; '-' is standard input")
    parser.add_argument("--play", action="store_true", help="play the losing side, on the terminal")


# Reading.

def read(name):
    """The contest of a file. Its form is judged here, its numbers by the library."""
    found, sets = {}, []
    for number, line in enumerate(b"".join(plans.parts(name)).decode("latin-1").split("\n"), 1):
        where = f"{plans.shown(name)}, line {number}"
        word, *numbers = line.split("#")[0].split() or [""]
        if word == "set":
            sets.append((where, parse(numbers, LARGEST_MASK, where)))
        elif word in ("stations", "keep", "rounds"):
            if word in found:
                raise Wrong(f"{where}: a second '{word}'; it stands once")
            found[word] = parse(numbers, LARGEST, where)
            if len(numbers) != 1:
                raise Wrong(f"{where}: '{word}' has {plans.counted(len(numbers), 'number')}; it takes one")
        elif word:
            raise Wrong(f"{where}: {plans.quoted(word)}; a line is stations, keep, rounds or set, with its numbers")
    for word in ("stations", "keep", "rounds"):
        if word not in found:
            raise Wrong(f"{plans.shown(name)}: there is no line '{word}'")
    n = found["stations"][0]
    for where, masks in sets:
        if len(masks) != n:
            raise Wrong(f"{where}: a set of {plans.counted(len(masks), 'mask')}; it takes one for each of {n} stations")
    return Contest(name, n, found["keep"][0], found["rounds"][0], [masks for _, masks in sets])


def parse(words, most, where):
    for word in words:
        if plans.number(word, most) is None:
            raise Wrong(f"{where}: {plans.quoted(word)}; a number here is 0 to {most:,}")
    return list(map(int, words))


# Answering.

def answer(contest):
    """Who can force the result, as 0 for the breaker and 1 for the keeper, and the keeper's first pick."""
    refusal, found = library.contest(contest.n, contest.station, sum(contest.sets, []), contest.rounds)
    if refusal:
        words = {1: f"there are 1 to 16 stations and 'keep' names one of them, not {contest.station} of {contest.n}",
                 20: f"a contest has at most 4 stations, 1 to 4 sets and at most 6 rounds, not {contest.n}, "
                     f"{len(contest.sets)} and {contest.rounds}"}
        raise Wrong(f"{plans.shown(contest.name)}: refused with {refusal}: {words.get(refusal, '')}")
    return found


def ends_by(contest, picks):
    """Whether the station's first broadcast ends in the rounds of these picks: their forecast tells."""
    log = array("H", [mask for pick in picks for mask in contest.sets[pick]])
    return library.forecast(contest.n, log)[1][0][contest.station] > 0


def positions(contest):
    """Whether the keeper wins after some picks, as a function of them.

    The library judges whole contests and not positions in one. So every play from there is gone through, and the
    library's forecast tells which of them end the broadcast.
    """
    @functools.cache
    def keeper_wins(picks):
        if ends_by(contest, picks) or len(picks) == contest.rounds:
            return ends_by(contest, picks)
        after = (keeper_wins(picks + (pick,)) for pick in range(len(contest.sets)))
        return any(after) if len(picks) % 2 == 0 else all(after)
    return keeper_wins


# Showing and playing.

def set_words(masks):
    heard = ((i, [j for j in range(len(masks)) if j != i and mask >> j & 1]) for i, mask in enumerate(masks))
    return "; ".join(f"{i} hears {', '.join(map(str, senders))}" for i, senders in heard if senders) or "silence"


def play(contest, winner):
    """Rounds in turn until the broadcast ends or the rounds do; the program picks the lowest set that keeps its win."""
    keeper_wins, picks = positions(contest), ()
    print(f"You are the {SIDES[1 - winner]}.")
    while len(picks) < contest.rounds and not ends_by(contest, picks):
        number, keeper = len(picks) + 1, len(picks) % 2 == 0
        if keeper == winner:
            pick = next(pick for pick in range(len(contest.sets)) if keeper_wins(picks + (pick,)) == winner)
            print(f"round {number}, the {SIDES[winner]} picks set {pick}")
        else:
            pick = asked(f"round {number}, your set (0 to {len(contest.sets) - 1}): ", len(contest.sets))
            if pick is None:
                print("The play is left.")
                return
        picks += (pick,)
    if ends_by(contest, picks):
        print(f"Station {contest.station} ends its first broadcast in round {len(picks)}: the keeper wins.")
    else:
        print(f"Station {contest.station} has not ended its first broadcast: the breaker wins.")


def asked(prompt, count):
    """The pick of the person, or None where there is no more to read."""
    while True:
        print(prompt, end="", flush=True)
        line = sys.stdin.readline()
        if not line:
            print()
            return None
        if (pick := plans.number(line.strip(), count - 1)) is not None:
            return pick
        print(f"A set is a number from 0 to {count - 1}.")


def run(given):
    if given.play and given.contest == "-":
        raise Misused("--play reads your picks from standard input, so the contest comes from a file")
    contest = read(given.contest)
    winner, pick = answer(contest)
    print(f"{plans.counted(contest.n, 'station')}, {plans.counted(contest.rounds, 'round')}; "
          f"the keeper wants station {contest.station} to end its first broadcast")
    for number, masks in enumerate(contest.sets):
        print(f"set {number}: {set_words(masks)}")
    if winner:
        print(f"The keeper can force it; its lowest first pick is set {pick}.")
    else:
        print("The breaker can prevent it.")
    if given.play:
        play(contest, winner)
