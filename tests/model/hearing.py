"""Hear: one frame's records at a station (document 01, "A station and its calls"; document 02, A4)."""

from typing import NamedTuple

from .bodies import EMPTY, EMPTY_KIND, Body
from .frames import frame_refusal, read_frame
from .queues import LANE_LIMIT, lane_with, replaced
from .records import CONFLICTING, NEWER, age, own_label, successor
from .refusals import CONFLICT, DONE, LANE_FULL, OUTSIDE_LIMITS
from .station import LARGEST_COUNT, Station, in_limits


class Heard(NamedTuple):
    refusal: int
    station: Station
    taken: int  # the set of stations taken from: bit k is station k


class Taking(NamedTuple):
    source: int
    body: Body


class FrameRefused(Exception):
    """A frame that is refused while it is heard, with its number."""

    def __init__(self, refusal):
        super().__init__(refusal)
        self.refusal = refusal


def held_record(station, k):
    return station.table[k] if station.held[k] else None


def hold(station, record):
    """The record in its table place, whose label entries from N up stay as they are."""
    k, n = record.station, station.n
    stored = record._replace(labels=record.labels[:n] + station.table[k].labels[n:])
    return station._replace(table=replaced(station.table, k, stored),
                            held=replaced(station.held, k, True))


def acknowledge(station, record):
    """If the record's label for the hearer is the hearer's own label, its station is acknowledged."""
    if record.labels[station.own] != station.labels[station.own]:
        return station
    return station._replace(acked=replaced(station.acked, record.station, True))


def advance(station, k):
    """The hearer's label for station k moves on, and its count rises as far as it can."""
    return station._replace(labels=replaced(station.labels, k, successor(station.labels[k])),
                            count=min(station.count + 1, LARGEST_COUNT))


def take(station, k, body):
    """A body put last in the lane of another station."""
    lane = station.lanes[k]
    if lane.length >= LANE_LIMIT:
        raise FrameRefused(LANE_FULL)
    return station._replace(lanes=replaced(station.lanes, k, lane_with(lane, body)))


def hear_record(station, record):
    """One record of another station: the station after it, and the body taken, Empty for none."""
    k = record.station
    if age(record, held_record(station, k), station.n) != NEWER:
        return station, EMPTY
    station = acknowledge(hold(station, record), record)
    if own_label(record) != successor(station.labels[k]):
        return station, EMPTY
    station = advance(station, k)
    if record.body.kind == EMPTY_KIND:
        return station, EMPTY
    return take(station, k, record.body), record.body


def conflicts(station, record):
    """Whether a record of another station conflicts with the held one."""
    return age(record, held_record(station, record.station), station.n) == CONFLICTING


def hear_records(station, records):
    """The records of one frame in order: the station after them, and the takings as heard.

    Conflicts are judged against the table as it stands when the frame is heard, before any lane.
    """
    others = [record for record in records if record.station != station.own]
    if any(conflicts(station, record) for record in others):
        raise FrameRefused(CONFLICT)
    takings = []
    for record in others:
        station, body = hear_record(station, record)
        if body.kind != EMPTY_KIND:
            takings.append(Taking(record.station, body))
    return station, takings


def hear(station, data):
    if not in_limits(station):
        return Heard(OUTSIDE_LIMITS, station, 0)
    refusal = frame_refusal(data, station.n, station.own, station.edition)
    if refusal != DONE:
        return Heard(refusal, station, 0)
    try:
        after, takings = hear_records(station, read_frame(data))
    except FrameRefused as refused:
        return Heard(refused.refusal, station, 0)
    return Heard(DONE, after, sum(1 << taking.source for taking in takings))
