"""A10: the link log of two carriers together, hearing by hearing (document 02)."""

from .forecast import log_refusal, rounds_of
from .records import PLACES
from .refusals import BAD_LOG, BAD_NUMBER, BUFFER_SHORT, DONE


def hears(rounds, u, i, j):
    """Whether i hears j in the round of this number; past its end a log is silent."""
    return u <= len(rounds) and i != j and rounds[u - 1][i] >> j & 1 == 1


def merged(first, second, n):
    """The merged log; both logs are whole rounds of n stations."""
    one, two = rounds_of(first, n), rounds_of(second, n)
    return [sum(1 << j for j in range(n) if hears(one, u, i, j) or hears(two, u, i, j))
            for u in range(1, max(len(one), len(two)) + 1) for i in range(n)]


def call(first, second, n, buffer, masks):
    """The call from C: its refusal, and what the two logs, the buffer and the number of masks then hold."""
    unchanged = first, second, buffer, masks
    if not 1 <= n <= PLACES:
        return BAD_NUMBER, unchanged
    if log_refusal(first, n) or log_refusal(second, n):
        return BAD_LOG, unchanged
    log = merged(first, second, n)
    if len(buffer) < len(log) or len(masks) < 1:
        return BUFFER_SHORT, unchanged
    return DONE, (first, second, log + list(buffer[len(log):]), [len(log)] + list(masks[1:]))
