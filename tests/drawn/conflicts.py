"""False frames of request A4: records that conflict with a held one, and those that nearly do. Each case has the refusal that must be given.

In edition 1 (request A9) the edits have a channel, which is one more field to differ in.
"""

from model import group, states
from model.bodies import EDITIONS, EMPTY, INSERT, NEUTRAL, SHIFT, Body, edit_kind
from model.frames import frame_bytes
from model.queues import DEFAULT_LIMIT, LANE_LIMIT, NO_LANE, Queue, replaced
from model.records import PLACES, Record, count_limit, successor

HELD = Body(SHIFT, 9, 5)
OTHER_BODIES = {"kind": Body(INSERT, 9, 5), "event": Body(SHIFT, 10, 5), "argument": Body(SHIFT, 9, -5), "Empty": EMPTY, "Neutral": NEUTRAL}
CHANNEL, OTHER_CHANNEL = 7, 8


def in_edition(body, edition):
    return body._replace(channel=CHANNEL) if edition == 1 and edit_kind(body) else body


def other_bodies(edition):
    """By name, bodies that differ in one field from the held one."""
    found = {name: in_edition(body, edition) for name, body in OTHER_BODIES.items()}
    return found | {"channel": HELD._replace(channel=OTHER_CHANNEL)} if edition == 1 else found


def others(n, *stations):
    return [k for k in range(n) if k not in stations]


def with_lane(station, k, lane):
    return station._replace(lanes=replaced(station.lanes, k, lane))


def holding(rng, station, record):
    """The station with this record in its table, and anything in the labels from N up."""
    n, k = station.n, record.station
    stored = record._replace(labels=record.labels[:n] + tuple(rng.choices(range(4), k=PLACES - n)))
    return station._replace(held=replaced(station.held, k, True), table=replaced(station.table, k, stored))


def hearer(rng, n, own, edition):
    """A station inside its limits whose lanes are empty."""
    s = states.random_station(rng, n, own, edition)
    return s._replace(lanes=(NO_LANE,) * n + s.lanes[n:])


def of(rng, n, k, edition):
    return Record(k, rng.randint(0, count_limit(n)), in_edition(HELD, edition), states.random_labels(rng, n, high=False))


def relabelled(record, j, label):
    return record._replace(labels=replaced(record.labels, j, label))


def overfilling(station, k):
    """A record of k whose body its full lane cannot take: none of k is held, and its label is next."""
    full = Queue(LANE_LIMIT, (NEUTRAL, in_edition(HELD, station.edition)))
    return with_lane(station._replace(held=replaced(station.held, k, False)), k, full)


def next_of(rng, station, k):
    return relabelled(of(rng, station.n, k, station.edition), k, successor(station.labels[k]))


# One station.

def changed_alone(rng, n, edition):
    """A held record, heard again with one other field changed."""
    own, k = rng.sample(range(n), 2)
    record = of(rng, n, k, edition)
    s = holding(rng, hearer(rng, n, own, edition), record)
    heard = lambda seen: frame_bytes(n, k, [seen], edition)
    yield "the same", s, heard(record), 0
    for name, body in other_bodies(edition).items():
        yield f"another {name}", s, heard(record._replace(body=body)), 14
    for j in others(n, k):
        yield f"another label of {j}", s, heard(relabelled(record, j, successor(record.labels[j]))), 14
    other = record._replace(body=NEUTRAL)
    yield "the next own label", s, heard(relabelled(other, k, successor(record.labels[k]))), 0
    yield "the own label before", s, heard(relabelled(other, k, successor(successor(record.labels[k])))), 0
    if record.count < count_limit(n):
        yield "a larger count", s, heard(other._replace(count=record.count + 1)), 0
    if record.count > 0:
        yield "a smaller count", s, heard(other._replace(count=record.count - 1)), 0
    nobody = s._replace(held=replaced(s.held, k, False))
    yield "another body where none is held", nobody, heard(other), 0


def own_record(rng, n, edition):
    """The hearer's own record, with its label and count and another body, in a frame of another."""
    own, sender = rng.sample(range(n), 2)
    record = of(rng, n, sender, edition)
    s = holding(rng, hearer(rng, n, own, edition), record)
    mine = s.table[own]._replace(count=0, body=record.body, labels=s.table[own].labels[:n] + (0,) * (PLACES - n))
    s = s._replace(table=replaced(s.table, own, s.table[own]._replace(count=0, body=record.body)))
    records = sorted((mine._replace(body=NEUTRAL), record), key=lambda one: one.station)
    yield "another face of itself", s, frame_bytes(n, sender, records, edition), 0


def both_in_one(rng, n, edition):
    """A conflict and a full lane in one frame, in either order."""
    own, one, two = rng.sample(range(n), 3)
    for conflict, full in ((min(one, two), max(one, two)), (max(one, two), min(one, two))):
        record = of(rng, n, conflict, edition)
        s = overfilling(holding(rng, hearer(rng, n, own, edition), record), full)
        for body, refusal in ((NEUTRAL, 14), (record.body, 8)):
            records = sorted((record._replace(body=body), next_of(rng, s, full)), key=lambda seen: seen.station)
            yield f"a full lane of {full}, station {conflict} seen as {body}", s, frame_bytes(n, full, records, edition), refusal


def station_cases(rng, count, editions=EDITIONS):
    """A name, a station inside its limits, a frame that its check accepts, and the refusal."""
    for _ in range(count):
        n, edition = rng.randint(2, PLACES), rng.choice(editions)
        yield from changed_alone(rng, n, edition)
        yield from own_record(rng, n, edition)
        if n > 2:
            yield from both_in_one(rng, n, edition)


# Rounds. One station hears some of the others, whose tables do not fit together.

def masks(n, hearer_of, senders):
    return tuple(sum(1 << j for j in senders) if i == hearer_of else 0 for i in range(PLACES))


def two_faces(rng, n, edition):
    """The hearer holds nothing of a station, and two senders show it with two bodies: the second conflicts with what came before in the round."""
    stations = group.fresh_group_state(n, DEFAULT_LIMIT, edition)
    one, shown = rng.sample(range(n), 2)
    senders = sorted(rng.sample(others(n, one, shown), 2))
    record = of(rng, n, shown, edition)
    faces = dict(zip(senders, (record, record._replace(body=rng.choice(list(other_bodies(edition).values()))))))
    given = tuple(holding(rng, s, faces[place]) if place in faces else s for place, s in enumerate(stations))
    for heard in (senders[:1], senders[1:]):
        yield f"one face, of {heard}", given, masks(n, one, heard), 0
    yield "two faces in one round", given, masks(n, one, senders), 14
    same = tuple(holding(rng, s, record) if place in faces else s for place, s in enumerate(stations))
    yield "one face twice in one round", same, masks(n, one, senders), 0


def held_before(rng, n, edition):
    """The hearer holds the record that the sender shows; what each has in its labels from N up is no part of it."""
    stations = group.fresh_group_state(n, DEFAULT_LIMIT, edition)
    one, shown, sender = rng.sample(range(n), 3)
    record = of(rng, n, shown, edition)
    for seen, refusal in ((record, 0), (record._replace(body=NEUTRAL), 14)):
        given = replaced(replaced(stations, one, holding(rng, stations[one], record)), sender, holding(rng, stations[sender], seen))
        yield f"a held record seen as {seen.body}", given, masks(n, one, [sender]), refusal


def both_in_two(rng, n, edition):
    """A conflict in the frame of one sender and a full lane in that of another, in either order; and in one frame."""
    stations = group.fresh_group_state(n, DEFAULT_LIMIT, edition)
    one, shown, full = rng.sample(range(n), 3)
    senders = sorted(rng.sample(others(n, one, shown, full), 2))
    record = of(rng, n, shown, edition)
    heard = overfilling(holding(rng, stations[one], record), full)
    body = next_of(rng, heard, full)
    for faces, fulls, refusal in ((senders[:1], senders[1:], 14), (senders[1:], senders[:1], 8), (senders[:1], senders[:1], 14)):
        given = replaced(stations, one, heard)
        for sender in faces:
            given = replaced(given, sender, holding(rng, given[sender], record._replace(body=NEUTRAL)))
        for sender in fulls:
            given = replaced(given, sender, holding(rng, given[sender], body))
        yield f"a conflict of {faces}, a full lane of {fulls}", given, masks(n, one, senders), refusal


def group_cases(rng, count, editions=EDITIONS):
    """A name, a group inside its limits, the masks of a round, and its refusal."""
    for _ in range(count):
        n, edition = rng.randint(5, PLACES), rng.choice(editions)
        yield from two_faces(rng, n, edition)
        yield from held_before(rng, n, edition)
        yield from both_in_two(rng, n, edition)
