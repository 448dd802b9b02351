"""Cases of the calls on bulletins. Each is the call's name and its arguments."""

import itertools
from array import array

from model import states
from model.bulletins import MOST_OWN
from model.group import fresh_group_state
from model.records import PLACES
from model.station import DESKS

from . import formats, group_cases
from .bulletin_bytes import ALL, ROUND_SHOWN, SHOWN, WIDTH, Table, places_of, stands, table_bytes
from .cases import NUMBERS, around, buffer, changed, of_other_length
from .group_cases import BEYOND, POST, post, some_masks
from .station_cases import first_of, lent

FRESH, ISSUE, ROUND = (f"relay_bulletins_{name}" for name in ("fresh", "issue", "round"))
ORDERS = {FRESH: (1, 9), ISSUE: (2, 1, 4, 19), ROUND: (2, 10, 14, 8, 9)}
MOST = 2 ** 32 - 1
TAGS = (0, 1, 2 ** 31 - 1, 2 ** 31, MOST - 1, MOST)
EVENTS = (1, 2, 50_000_000, 99_999_998, 99_999_999)
BAD_EVENTS = (0, 100_000_000, 2 ** 31, MOST)


def some_tag(rng):
    return rng.choice(TAGS) if rng.random() < 0.6 else rng.getrandbits(32)


def random_table(rng, n, share=None):
    """Bulletins inside their limits; tags, events and sets that say nothing are drawn too."""
    share = rng.random() if share is None else share
    tags, events = [rng.getrandbits(32) for _ in range(ALL)], [rng.getrandbits(32) for _ in range(ALL)]
    sets = [0] * n + [rng.getrandbits(64) for _ in range(PLACES - n)]
    for issuer in range(n):
        known = set()
        for place in places_of(issuer):
            tag = some_tag(rng)
            if rng.random() < share and tag not in known:
                known.add(tag)
                tags[place], events[place] = tag, rng.choice(EVENTS)
                for station in range(n):
                    sets[station] |= (station == issuer or rng.random() < 0.4) << place
    return Table(n, tuple(tags), tuple(events), tuple(sets))


def in_set(table, station, place):
    return table._replace(sets=tuple(held | (p == station) << place for p, held in enumerate(table.sets)))


def group_bytes(n, edition=0):
    return formats.group_bytes(fresh_group_state(n, 8, edition))


def issue(rng, data, issuer, tag=None, event=None):
    tag = some_tag(rng) if tag is None else tag
    return ISSUE, lent(rng, data), issuer, tag, rng.choice(EVENTS) if event is None else event


def round_of(rng, group, data, masks=None, reports=formats.ROUND, shown=ROUND_SHOWN):
    return (ROUND, lent(rng, group), lent(rng, data), some_masks(rng) if masks is None else masks,
            buffer(rng, reports), buffer(rng, shown))


def both(rng, table, n):
    data = table_bytes(table)
    yield issue(rng, data, rng.choice((*range(n), n, *BEYOND)))
    yield round_of(rng, group_bytes(n), data)


# Cases.

def fresh(rng):
    for n in NUMBERS:
        yield FRESH, buffer(rng, WIDTH), n
        for room in around(WIDTH):
            yield FRESH, buffer(rng, room), n


def runs(rng, rounds):
    """Issues, posts of both desks and rounds from fresh, of groups of 1 to 16 of either edition."""
    def steps(step):
        for n in range(1, PLACES + 1):
            edition = n // 2 % 2
            group = group_bytes(n, edition)
            _, state = step(FRESH, buffer(rng, WIDTH), n)
            for _ in range(rounds):
                for _ in range(rng.choice((0, 1, 3, 6))):
                    event = rng.choice(BAD_EVENTS) if rng.random() < 0.1 else None
                    _, state = step(*issue(rng, bytes(state), rng.choice((*range(n),) * 4 + BEYOND), event=event))
                _, group = step(*post(rng, bytes(group), rng.randrange(n), states.random_edit(rng, edition), rng.choice(DESKS)))
                _, group, state, *_ = step(*round_of(rng, bytes(group), bytes(state)))
    return steps


def drawn(rng, count):
    for _ in range(count):
        n = rng.randint(1, PLACES)
        yield from both(rng, random_table(rng, n), n)


def full(rng):
    """All four of each issuer; in one round everyone hears everyone, so that a station shows up to sixty."""
    for n in (1, 2, 5, 16):
        own = sum(15 << 4 * i for i in range(n))
        tags = tuple(rng.sample(range(2 ** 32), ALL))
        sets = tuple(own & 15 << 4 * p if p < n else 0 for p in range(PLACES))
        table = Table(n, tags, (7,) * ALL, sets)
        yield round_of(rng, group_bytes(n), table_bytes(table), array("H", [2 ** 16 - 1] * PLACES))
        for issuer in range(n):
            yield issue(rng, table_bytes(table), issuer)


def tags_at_the_ends(rng):
    """An issuer whose four tags stand in every order, shown in one round."""
    for tags in itertools.permutations((0, 2 ** 31 - 1, 2 ** 31, MOST)):
        table = Table(3, (0,) * 4 + tags + (0,) * (ALL - 8), (9,) * ALL, (0, 15 << 4) + (0,) * 14)
        yield round_of(rng, group_bytes(3), table_bytes(table), array("H", [2, 0, 2] + [0] * 13))
        for tag in tags:
            yield issue(rng, table_bytes(table._replace(sets=(0, 7 << 4) + (0,) * 14)), 1, tag)


def broken(rng, table):
    """The table with each limit broken, by name."""
    n = table.n
    used = [s for s in range(MOST_OWN * n) if stands(table, s)]
    free = [s for s in range(MOST_OWN * n) if not stands(table, s)]
    for other in (0, 17, 255):
        yield table._replace(n=other)
    for station in {0, n - 1}:
        for place in {MOST_OWN * n, ALL - 1} if n < PLACES else ():
            yield in_set(table, station, place)
        others = [s for s in free if s // MOST_OWN != station]
        for place in rng.sample(others, min(3, len(others))):
            yield in_set(table, station, place)
    for place in rng.sample(used, min(4, len(used))):
        put = lambda values, value: values[:place] + (value,) + values[place + 1:]
        for event in BAD_EVENTS:
            yield table._replace(events=put(table.events, event))
        for twin in places_of(place // MOST_OWN):
            if twin != place and stands(table, twin):
                alike = table._replace(tags=put(table.tags, table.tags[twin]))
                yield alike
                yield alike._replace(events=put(table.events, table.events[twin]))
        holders = [p for p in range(n) if table.sets[p] >> place & 1 and p != place // MOST_OWN]
        if holders:
            without = lambda p, held: held & ~((p == place // MOST_OWN) << place)
            yield table._replace(sets=tuple(itertools.starmap(without, enumerate(table.sets))))


def outside_limits(rng):
    for n in (1, 2, 3, 16):
        table = random_table(rng, n, 0.8)
        for bad in broken(rng, table):
            yield from both(rng, bad, n)


def another_n(rng):
    for n in range(1, PLACES + 1):
        for other in {1, n % PLACES + 1, PLACES} - {n}:
            yield round_of(rng, group_bytes(other), table_bytes(random_table(rng, n)))


def no_state(rng):
    """Bytes that are no bulletins, or no group."""
    for n in (1, 4, 16):
        data, group = table_bytes(random_table(rng, n)), group_bytes(n)
        for length in (0, 1, 4, WIDTH - 1, WIDTH + 1, 2 * WIDTH):
            yield issue(rng, (data + data)[:length], 0)
            yield round_of(rng, group, (data + data)[:length])
        for at in (1, 2, 3):
            bad = changed(data, at, [rng.choice((1, 128, 255))])
            yield issue(rng, bad, 0)
            yield round_of(rng, group, bad)
        yield round_of(rng, of_other_length(rng, group), data)
        yield round_of(rng, changed(group, 3, [1]), data)
    for _ in range(30):
        yield issue(rng, changed(rng.randbytes(WIDTH), 0, (rng.randint(1, 16), 0, 0, 0)), 0)


def buffers(rng):
    """Masks, reports and what is shown, of every kind of length."""
    for n in (1, 7, 16):
        data = table_bytes(random_table(rng, n))
        rooms = (0, 1, 15, 16, 17), around(formats.ROUND)[2:5], (0, SHOWN, *around(ROUND_SHOWN)[2:5])
        for count, reports, shown in itertools.product(*rooms):
            yield round_of(rng, group_bytes(n), data, (some_masks(rng) * 2)[:count], reports, shown)


# Several refusals at once.

def with_faults(rng, name, faults):
    n = rng.randint(2, 15)
    table = random_table(rng, n, 1.0)
    if name == FRESH:
        return FRESH, buffer(rng, WIDTH - 1 if "9" in faults else WIDTH), 17 if "1" in faults else n
    issuer = rng.randrange(n)
    used = [s for s in places_of(issuer) if stands(table, s)]
    table = in_set(table, 0, ALL - 1) if "2" in faults else table
    if name == ROUND:
        return round_of(rng, group_bytes(n), table_bytes(table), shown=ROUND_SHOWN - ("9" in faults))
    tag = table.tags[used[0]] if "19" in faults else rng.choice([t for t in range(9) if t not in table.tags])
    if "19" not in faults:      # a place is free
        table = table._replace(sets=tuple(held & ~(1 << used[-1]) for held in table.sets[:n]) + table.sets[n:])
    event = rng.choice(BAD_EVENTS) if "4" in faults else None
    return issue(rng, table_bytes(table), n if "1" in faults else issuer, tag, event)


def refused_groups(rng, times):
    """Rounds that the group refuses, by itself or with other refusals; its bulletins are right, or of another n."""
    for first, (_, group, masks, reports) in group_cases.at_once(rng, group_cases.ROUND, times):
        given = formats.read_group(bytes(group))
        n = given[0].n if given and 1 <= given[0].n <= PLACES else 3
        for size in (n,) if first in (0, 2) else (n, n % PLACES + 1):
            state = lent(rng, table_bytes(random_table(rng, size)))
            yield first if size == n else 2, (ROUND, group, state, masks, reports, buffer(rng, ROUND_SHOWN))


def at_once(rng, name, times):
    """Every set of faults, each with the refusal that comes first; of a round those that are not the group's."""
    order = [one for one in ORDERS[name] if one not in (10, 14, 8)]
    for count in range(len(order) + 1):
        for some in itertools.combinations(order, count):
            for _ in range(times):
                faults = {str(one) for one in some}
                yield first_of(order, faults), with_faults(rng, name, faults)
