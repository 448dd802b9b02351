"""Single calls on states that need not come from a fresh group, inside their limits and outside."""

import random

from drawn import conflicts
from model import group, hearing, outside, states, station, turns
from model.queues import NO_LANE, replaced
from model.records import PLACES

from . import built
from .compare import agree
from .values import body_bytes, group_bytes, of_edition_0, station_bytes

STATIONS = 400
GROUPS = 80


def compare():
    compare_fresh()
    for number, (rng, drawn) in enumerate(states.some_stations(STATIONS, least_n=2)):
        s = of_edition_0(drawn)
        body = rng.choice(states.ANY_BODIES + (states.random_edit(rng),))
        buffer = rng.randbytes(rng.choice((0, 3, 100, 260, 300)))
        agree(f"station {number}", calls(s, body, rng.choice((0, 1, 0, 1, 2, 255)), buffer, states.some_frame(rng, s)))
    inside = of_edition_0(states.random_station(random.Random("inside"), 5, 2))
    for name in outside.stations_outside(inside).keys() - outside.editions_outside(inside).keys():
        agree(name, calls(outside.stations_outside(inside)[name], states.ANY_BODIES[2], 1, bytes(260), b""))
    compare_rounds()
    compare_conflicts()


def compare_fresh():
    """Every limit, and numbers and limits outside theirs."""
    for n, own in ((1, 0), (3, 2), (16, 15), (0, 0), (17, 3), (3, 3)):
        for limit in (*range(34), 255):
            refusal, _, after = built.call("f", bytes([n, own, limit]))
            agree(f"fresh station {own} of {n}, limit {limit}", [
                ("answer", tuple(station.fresh(n, own, limit)), (refusal, after.station()))])
    for n in (0, 1, 2, 16, 17):
        for limit in (0, 1, 8, 9, 32, 33):
            refusal, _, after = built.call("n", bytes([n, limit]))
            agree(f"fresh group of {n}, limit {limit}", [
                ("answer", tuple(group.fresh(n, limit)), (refusal, after.group()))])


def calls(s, body, desk, buffer, frame):
    """The four calls of a station: what the model answers and what the peer answers."""
    given = station_bytes(s)

    expected = station.post(s, body, desk)
    refusal, _, after = built.call("p", given + bytes([desk]) + body_bytes(body))
    yield "post", (expected.refusal, visible(s, expected.station)), (refusal, visible(s, after.station()))

    refusal, length, after = built.call("w", given + buffer)
    yield "write frame", tuple(station.write_frame(s, buffer)), (refusal, length, after.rest())

    expected = hearing.hear(s, frame)
    refusal, taken, after = built.call("h", given + frame)
    yield ("hear", (expected.refusal, expected.taken, visible(s, expected.station)),
           (refusal, taken, visible(s, after.station())))

    expected = turns.turn(s)
    refusal, _, after = built.call("t", given)
    yield ("turn", (expected.refusal, visible(s, expected.station), tuple(expected[2:])),
           (refusal, visible(s, after.station()), after.turn()))


def visible(before, after):
    """What is compared of a station: its state, and that the entries from N up are carried along. Outside its limits it is the whole."""
    if not station.in_limits(before):
        return after
    return states.state_part(after), states.carried_part(after, before.held)


# Rounds, and posts to a group.

def compare_rounds():
    refusals = set()
    for seed in range(GROUPS):
        rng = random.Random(f"group {seed}")
        given = some_group(rng, rng.randint(1, PLACES))
        masks = tuple(rng.choice((0, 1 << rng.randrange(PLACES), rng.getrandbits(PLACES))) for _ in range(PLACES))
        expected = group.round_of(given, masks)
        refusals.add(expected.refusal)
        refusal, _, after = built.call("r", group_bytes(given) + mask_bytes(masks))
        agree(f"round of group {seed}", [
            ("refusal", expected.refusal, refusal),
            ("group", visible_group(given, expected), visible_group(given, expected._replace(group=after.group()))),
            ("reports", expected.reports, after.several(after.report, PLACES))])
        agree(f"post to group {seed}", [group_post(given, rng.randrange(18), rng.randrange(3), states.random_edit(rng))])
    agree("rounds", [("refusals met", {0, 2, 8, 10, 14}, refusals)])


def compare_conflicts():
    for name, s, frame, refusal in conflicts.station_cases(random.Random("conflicts"), 12, editions=(0,)):
        expected = hearing.hear(s, frame)
        got, taken, after = built.call("h", station_bytes(s) + frame)
        agree(name, [("the case", refusal, expected.refusal),
                     ("hear", (expected.refusal, expected.taken, visible(s, expected.station)), (got, taken, visible(s, after.station())))])
    for name, given, masks, refusal in conflicts.group_cases(random.Random("conflicts"), 12, editions=(0,)):
        expected = group.round_of(given, masks)
        got, _, after = built.call("r", group_bytes(given) + mask_bytes(masks))
        agree(name, [("the case", refusal, expected.refusal), ("refusal", expected.refusal, got),
                     ("group", visible_group(given, expected), visible_group(given, expected._replace(group=after.group()))),
                     ("reports", expected.reports, after.several(after.report, PLACES))])


def mask_bytes(masks):
    return b"".join(mask.to_bytes(2, "little") for mask in masks)


def group_post(given, place, desk, body):
    expected = group.post(given, place, body, desk)
    refusal, _, after = built.call("g", group_bytes(given) + bytes([place, desk]) + body_bytes(body))
    got = group.PostedGroup(refusal, after.group())
    return "post", (expected.refusal, visible_group(given, expected)), (refusal, visible_group(given, got))


def visible_group(given, result):
    """As for stations; of a refused call, and of places from N up, it is the whole."""
    if result.refusal:
        return result.group
    n = group.group_n(given)
    return tuple(map(visible, given[:n], result.group[:n])) + result.group[n:]


def some_group(rng, n):
    """Often with counts that can be written and lanes that have places, now and then with a wrong number."""
    stations = list(states.random_group(rng, n))
    changed = rng.random()
    for place, s in enumerate(stations[:n]):
        if changed < 0.9:
            s = s._replace(table=replaced(s.table, place, s.table[place]._replace(count=0)))
        if changed < 0.6:
            s = s._replace(lanes=(NO_LANE,) * n + s.lanes[n:])
        stations[place] = s
    if changed < 0.1:
        place = rng.randrange(n)
        s = stations[place]
        stations[place] = rng.choice((s._replace(own=(place + 1) % 17), s._replace(n=n % PLACES + 1)))
    return of_edition_0(tuple(stations))
