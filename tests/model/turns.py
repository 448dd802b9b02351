"""Turn: a station closes the round (document 01, "A station and its calls")."""

from typing import NamedTuple

from .bodies import EMPTY, EMPTY_KIND, NEUTRAL, Body
from .queues import lane_with, lane_without_oldest, replaced, without_oldest
from .records import PLACES, Record, successor
from .refusals import DONE, OUTSIDE_LIMITS
from .station import Station, in_limits, next_desk, queue_of, with_queue

NO_ROW = (EMPTY,) * PLACES


class Turned(NamedTuple):
    refusal: int
    station: Station
    aired: bool         # whether a row was removed, be it of Neutral bodies only
    row: tuple          # sixteen bodies, the row's N first
    ended: bool
    ended_body: Body
    started_body: Body


# First step: the row.

def row_ready(station):
    return all(station.lanes[k].length > 0 for k in range(station.n))


def air(station):
    """The oldest body of each lane, if every lane has one: the station, whether, and the row."""
    if not row_ready(station):
        return station, False, NO_ROW
    n = station.n
    row = tuple(lane.slots[0] for lane in station.lanes[:n])
    lanes = tuple(lane_without_oldest(lane) for lane in station.lanes[:n]) + station.lanes[n:]
    return station._replace(lanes=lanes), True, row + NO_ROW[n:]


# Second step: the end of a broadcast and the start of the next.

def all_acknowledged(station):
    return all(station.acked[:station.n])


def may_start(station):
    """A body other than Empty starts only into an empty own lane."""
    return station.lanes[station.own].length == 0


def other_desk(desk):
    return 1 - desk


def choose_body(station):
    """The body to start, and the station without it among its waiting edits. The start of an edit,
    and nothing else, lets the other desk go first (document 02, A7)."""
    if not may_start(station):
        return station, EMPTY
    desk = next_desk(station)
    if desk is None:
        return station, NEUTRAL
    queue = queue_of(station, desk)
    after = with_queue(station, desk, without_oldest(queue))
    return after._replace(first=other_desk(desk)), queue.slots[0]


def take_own(station, body):
    """A started body other than Empty goes into the own lane."""
    if body.kind == EMPTY_KIND:
        return station
    lane = lane_with(station.lanes[station.own], body)
    return station._replace(lanes=replaced(station.lanes, station.own, lane))


def end(station):
    """The station, whether the broadcast ended, the ended body and the started one."""
    if not all_acknowledged(station):
        return station, False, EMPTY, EMPTY
    ended_body, n, own = station.body, station.n, station.own
    self_only = tuple(k == own for k in range(n))
    station, started = choose_body(station)
    station = station._replace(
        labels=replaced(station.labels, own, successor(station.labels[own])),
        count=0,
        acked=self_only + station.acked[n:],
        body=started)
    return take_own(station, started), True, ended_body, started


# Last step: the own record.

def rewrite_own_record(station):
    """The table's own record gets the present values; its label entries from N up stay."""
    n, own = station.n, station.own
    labels = station.labels[:n] + station.table[own].labels[n:]
    record = Record(own, station.count, station.body, labels)
    return station._replace(table=replaced(station.table, own, record))


def close_round(station):
    """The turn of a station inside its limits."""
    station, aired, row = air(station)
    station, ended, ended_body, started_body = end(station)
    station = rewrite_own_record(station)
    return Turned(DONE, station, aired, row, ended, ended_body, started_body)


def turn(station):
    if not in_limits(station):
        return Turned(OUTSIDE_LIMITS, station, False, NO_ROW, False, EMPTY, EMPTY)
    return close_round(station)
