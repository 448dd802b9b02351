"""Link logs, as arrays of 16-bit masks. The bits of a mask that no one reads are drawn."""

import itertools
from array import array

from model.forecast import MOST_ROUNDS


def mask_of(rng, n, hearer, senders):
    """A mask with these senders; its other bits are drawn."""
    read = (1 << n) - 1 & ~(1 << hearer)
    return sum(1 << j for j in senders) & read | rng.getrandbits(16) & ~read


def every_round(n):
    """Every choice of who hears whom, as N sets of senders."""
    def senders(i):
        others = [j for j in range(n) if j != i]
        return [choice for size in range(n) for choice in itertools.combinations(others, size)]
    return list(itertools.product(*map(senders, range(n))))


def every_log(rng, n, rounds):
    """All logs of this many rounds."""
    for chosen in itertools.product(every_round(n), repeat=rounds):
        yield array("H", [mask_of(rng, n, i, senders) for one in chosen for i, senders in enumerate(one)])


def random_log(rng, n, rounds):
    """Links that come and go in spells; with little or much in all, now and then nothing or everything."""
    share, change = rng.choice((0.05, 0.2, 0.5, 0.9)), rng.choice((0.05, 0.3, 1.0))
    up = [[rng.random() < share for _ in range(n)] for _ in range(n)]
    log = array("H")
    for _ in range(rounds):
        for i, row in enumerate(up):
            for j in range(n):
                if rng.random() < change:
                    row[j] = rng.random() < share
            log.append(mask_of(rng, n, i, [j for j in range(n) if row[j]]))
        if rng.random() < 0.03:
            log[-n:] = array("H", [rng.choice((0, 65_535))] * n)
    return log


def full_mesh(n, rounds):
    return array("H", [65_535] * (n * rounds))


def bad_logs(rng):
    """Logs and sizes of group that are refused, or nearly so: odd lengths, and one round too many."""
    for n in (*range(0, 18), 255, 256, 257, 65_536 + 2, 2 ** 31, 2 ** 32 - 1):
        for length in {0, 1, 2, n - 1 & 255, n & 255, 3 * (n & 255) + 1, 16, 17, 240}:
            yield n, array("H", [rng.getrandbits(16) for _ in range(length)])
    for n in (1, 2, 3, 16):
        for length in (n * MOST_ROUNDS - 1, n * MOST_ROUNDS + 1, n * (MOST_ROUNDS + 1), n * 2 * MOST_ROUNDS):
            yield n, array("H", [rng.getrandbits(16) for _ in range(length)])
