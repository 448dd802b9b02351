"""Bulletins and what is shown as bytes, at the places of include/relay.h; and the calls on them, by the model."""

import struct
from typing import NamedTuple

from model import bulletins
from model.bulletins import MOST_OWN, Bulletin
from model.records import PLACES
from model.refusals import BUFFER_SHORT, DONE, OUTSIDE_LIMITS

from . import formats
from .answers import in_front

WIDTH, SHOWN, ROUND_SHOWN = (formats.SIZES[name] for name in ("BULLETINS_BYTES", "SHOWN_BYTES", "ROUND_SHOWN_BYTES"))
ALL = MOST_OWN * PLACES
FORM = struct.Struct(f"<I{ALL}I{ALL}I{PLACES}Q")

assert FORM.size == WIDTH and SHOWN == 4 + 12 * ALL and ROUND_SHOWN == PLACES * SHOWN


class Table(NamedTuple):
    """The numbers as they stand."""
    n: int
    tags: tuple
    events: tuple
    sets: tuple


def table_bytes(table):
    return FORM.pack(table.n, *table.tags, *table.events, *table.sets)


def read_table(data):
    if len(data) != WIDTH:
        return None
    n, *rest = FORM.unpack(data)
    return Table(n, tuple(rest[:ALL]), tuple(rest[ALL:2 * ALL]), tuple(rest[2 * ALL:])) if n < 256 else None


def stands(table, place):
    """Whether the place's issuer holds it: else there is no bulletin."""
    return table.sets[place // MOST_OWN] >> place & 1 == 1


def bulletin_at(table, place):
    """At a place without a bulletin one that nobody issued: its tag is none."""
    tag = table.tags[place] if stands(table, place) else ("none", place)
    return Bulletin(place // MOST_OWN, tag, table.events[place])


def state_of(table):
    held = (tuple(bulletin_at(table, s) for s in range(ALL) if one >> s & 1) for one in table.sets)
    return bulletins.State(table.n, tuple(held))


def places_of(issuer):
    return range(MOST_OWN * issuer, MOST_OWN * issuer + MOST_OWN)


def with_bulletin(table, one):
    """The table with a bulletin at the first of its issuer's places at which there is none."""
    place = next(s for s in places_of(one.issuer) if not stands(table, s))
    put = lambda values, at, value: values[:at] + (value,) + values[at + 1:]
    return table._replace(tags=put(table.tags, place, one.tag), events=put(table.events, place, one.event),
                          sets=put(table.sets, one.issuer, table.sets[one.issuer] | 1 << place))


def with_shown(table, shown):
    """The table in which each station also holds what it shows."""
    where = {bulletin_at(table, s): s for s in range(MOST_OWN * table.n) if stands(table, s)}
    new = (sum(1 << where[one] for one in some) for some in shown)
    return table._replace(sets=tuple(held | more for held, more in zip(table.sets, new)))


def shown_bytes(some):
    entries = b"".join(struct.pack("<III", *one) for one in some)
    return struct.pack("<I", len(some)) + entries + bytes(SHOWN - 4 - len(entries))


# The calls: the refusal, and what every buffer then holds.

def fresh(state, n):
    refusal, made = bulletins.fresh(n)
    if refusal or len(state) < WIDTH:
        return refusal or BUFFER_SHORT, [state]
    return DONE, [in_front(table_bytes(Table(made.n, (0,) * ALL, (0,) * ALL, (0,) * PLACES)), state)]


def issue(state, issuer, tag, event):
    table = read_table(bytes(state))
    if table is None:
        return OUTSIDE_LIMITS, [state]
    one = Bulletin(issuer, tag, event)
    refusal, _ = bulletins.issue(state_of(table), one)
    return refusal, [state if refusal else table_bytes(with_bulletin(table, one))]


def round_of(group, state, masks, reports, shown):
    """Masks that are not there count as 0."""
    kept = [group, state, masks, reports, shown]
    given, table = formats.read_group(bytes(group)), read_table(bytes(state))
    if given is None or table is None:
        return OUTSIDE_LIMITS, kept
    sixteen = tuple(masks[:PLACES]) + (0,) * (PLACES - len(masks))
    done, _, told = bulletins.round_of(given, state_of(table), sixteen)
    short = len(masks) < PLACES or len(reports) < formats.ROUND or len(shown) < ROUND_SHOWN
    if done.refusal or short:
        return done.refusal or BUFFER_SHORT, kept
    return DONE, [formats.group_bytes(done.group), table_bytes(with_shown(table, told)), masks,
                  in_front(b"".join(map(formats.report_bytes, done.reports)), reports),
                  in_front(b"".join(map(shown_bytes, told)), shown)]
