"""A13: the link contest, by going through all plays; an end is one of the end rule by relays (document 02)."""

import functools

from .forecast import end_round
from .links import Links
from .records import PLACES
from .refusals import BAD_CONTEST, BAD_NUMBER, BUFFER_SHORT, DONE

MOST_STATIONS, MOST_SETS, MOST_ROUNDS = 4, 4, 6
BREAKER, KEEPER = 0, 1


@functools.lru_cache(maxsize=1 << 16)
def ends(n, s, log):
    """Whether the first broadcast of s ends under a log, a tuple of rounds."""
    return end_round(Links(n, log), s, 0) is not None


def read_bits(masks, n):
    """The masks without their bits that are ignored."""
    return tuple(mask & (1 << n) - 1 & ~(1 << i) for i, mask in enumerate(masks))


def keeper_wins(n, s, sets, rounds, played=()):
    """Whether the keeper can still force the end after these rounds; sets are tuples of masks."""
    if len(played) == rounds:
        return ends(n, s, played)
    after = (keeper_wins(n, s, sets, rounds, played + (one,)) for one in sets)
    keepers_pick = (len(played) + 1) % 2 == 1
    return any(after) if keepers_pick else all(after)


def winner(n, s, sets, rounds):
    """The side that can force the result, and the keeper's lowest first pick (0 for the breaker)."""
    sets = [read_bits(one, n) for one in sets]
    for pick, one in enumerate(sets):
        if rounds > 0 and keeper_wins(n, s, sets, rounds, (one,)):
            return KEEPER, pick
    return BREAKER, 0


def call(n, s, masks, rounds, answer):
    """The call from C: its refusal, and what masks and answer then hold."""
    if not 1 <= n <= PLACES or s >= n:
        return BAD_NUMBER, (masks, answer)
    if n > MOST_STATIONS or len(masks) % n or not 1 <= len(masks) // n <= MOST_SETS or rounds > MOST_ROUNDS:
        return BAD_CONTEST, (masks, answer)
    if len(answer) < 2:
        return BUFFER_SHORT, (masks, answer)
    sets = [tuple(masks[at:at + n]) for at in range(0, len(masks), n)]
    return DONE, (masks, [*winner(n, s, sets, rounds), *answer[2:]])
