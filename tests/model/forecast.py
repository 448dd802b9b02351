"""A1: how many broadcasts of each station end and the round of the last, by relays alone (document 02).

A log is a list of masks, N a round, round after round.
"""

from .links import Links
from .records import PLACES
from .refusals import BAD_LOG, BAD_NUMBER, BUFFER_SHORT, DONE

MOST_ROUNDS = 2_048


def rounds_of(log, n):
    return [tuple(log[at:at + n]) for at in range(0, len(log), n)]


def log_refusal(log, n):
    return BAD_LOG if len(log) % n or len(log) // n > MOST_ROUNDS else DONE


def end_round(links, s, t):
    """The round in which the broadcast that s started in round t ends, or None.

    For each other r the v of the end rule is best taken as the first round in which a relay reaches r: a
    relay back after a later round is one after that round too.
    """
    if t == len(links.log):
        return None
    if links.n == 1:
        return t + 1
    there, returns = links.arrivals(s, t), []
    for r in range(links.n):
        if r != s:
            returns.append(links.arrivals(r, there[r]).get(s) if r in there else None)
    return None if None in returns else max(returns)


def end_rounds(links, s):
    """The rounds in which the broadcasts of s end."""
    ends, t = [], end_round(links, s, 0)
    while t is not None:
        ends.append(t)
        t = end_round(links, s, t)
    return ends


def forecast(log, n):
    """Refusal, ends and last rounds; the latter two are zeros where the call is refused."""
    zeros = (0,) * PLACES
    if not 1 <= n <= PLACES:
        return BAD_NUMBER, zeros, zeros
    if log_refusal(log, n):
        return BAD_LOG, zeros, zeros
    links = Links(n, rounds_of(log, n))
    ends = [end_rounds(links, s) for s in range(n)] + [[]] * (PLACES - n)
    return DONE, tuple(map(len, ends)), tuple(one[-1] if one else 0 for one in ends)


def call(log, n, ends, last):
    """The call from C: its refusal, and what log, ends and last then hold."""
    refusal, counts, rounds = forecast(log, n)
    if refusal == DONE and min(len(ends), len(last)) < PLACES:
        refusal = BUFFER_SHORT
    if refusal != DONE:
        return refusal, (log, ends, last)
    return DONE, (log, list(counts) + list(ends[PLACES:]), list(rounds) + list(last[PLACES:]))
