"""A station: state, limits, fresh, post, write frame (document 01, "A station and its calls")."""

from typing import NamedTuple

from .bodies import EDITIONS, EMPTY, EMPTY_KIND, Body, body_right, channel_right, is_edit
from .frames import frame_bytes, frame_size, numbers_valid
from .queues import (CAPACITY, DEFAULT_LIMIT, LANE_LIMIT, NO_LANE, NO_WAITING, OWN_LANE_LIMIT,
                     Queue, contents, put_last)
from .records import (NO_RECORD, PLACES, Record, count_limit, labels_in_limits,
                      record_in_limits)
from .refusals import (BAD_DESK, BAD_EDITION, BAD_LIMIT, BAD_NUMBER, BUFFER_SHORT, COUNT_TOO_LARGE, DONE,
                       NOT_AN_EDIT, OUTSIDE_LIMITS, QUEUE_FULL)

LARGEST_COUNT = 255


class Station(NamedTuple):
    """Sixteen entries of everything; those from n up are data that no call reads or changes."""
    n: int
    own: int
    count: int
    body: Body        # the present body
    labels: tuple     # numbers
    acked: tuple      # bools: the acknowledged stations
    held: tuple       # bools: of which stations the table holds a record
    table: tuple      # Records; one that is not held is no part of the state
    lanes: tuple      # Queues of two slots
    waiting: Queue    # thirty-two slots: the edits of desk 0
    limit: int        # of the waiting edits of each desk (document 02, A2 and A7)
    waiting_1: Queue = NO_WAITING   # thirty-two slots: the edits of desk 1 (document 02, A7)
    first: int = 0    # the desk that goes first where both wait
    edition: int = 0  # of its group (document 02, A9)


# Desks.

DESKS = (0, 1)


def queue_of(station, desk):
    return station.waiting_1 if desk else station.waiting


def with_queue(station, desk, queue):
    return station._replace(waiting_1=queue) if desk else station._replace(waiting=queue)


def next_desk(station):
    """The desk whose oldest edit would start: of two that wait the one that goes first; None where
    none waits."""
    waiting = [desk for desk in DESKS if queue_of(station, desk).length > 0]
    if len(waiting) == 2:
        return station.first
    return waiting[0] if waiting else None


# Limits.

def is_lane_body(body, edition):
    return body.kind != EMPTY_KIND and body_right(body, edition)


def lane_in_limits(lane, most, edition):
    return lane.length <= most and all(is_lane_body(body, edition) for body in contents(lane))


def limit_valid(limit):
    return 1 <= limit <= CAPACITY


def edition_valid(edition):
    return edition in EDITIONS


def may_wait(body, edition):
    return is_edit(body) and channel_right(body, edition)


def waiting_in_limits(waiting, limit, edition):
    return (limit_valid(limit)
            and waiting.length <= limit
            and all(may_wait(body, edition) for body in contents(waiting)))


def place_in_limits(station, k):
    """The held record and the lane of station k, below N."""
    is_own = k == station.own
    if station.held[k]:
        record = station.table[k]
        most = LARGEST_COUNT if is_own else count_limit(station.n)
        if record.station != k or not record_in_limits(record, station.n, most, station.edition):
            return False
    return lane_in_limits(station.lanes[k], OWN_LANE_LIMIT if is_own else LANE_LIMIT, station.edition)


def in_limits(station):
    return (numbers_valid(station.n, station.own)
            and edition_valid(station.edition)
            and station.acked[station.own]
            and station.held[station.own]
            and station.count <= LARGEST_COUNT
            and body_right(station.body, station.edition)
            and labels_in_limits(station.labels, station.n)
            and all(waiting_in_limits(queue_of(station, desk), station.limit, station.edition)
                    for desk in DESKS)
            and all(place_in_limits(station, k) for k in range(station.n)))


# Fresh.

class FreshStation(NamedTuple):
    refusal: int
    station: Station


def only(k, value, other):
    """Sixteen entries: the value at place k, the other one elsewhere."""
    return tuple(value if place == k else other for place in range(PLACES))


def fresh_state(n, own, limit, edition=0):
    labels = only(own, 1, 0)
    self_only = only(own, True, False)
    table = only(own, Record(own, 0, EMPTY, labels), NO_RECORD)
    return Station(n, own, 0, EMPTY, labels, self_only, self_only, table,
                   (NO_LANE,) * PLACES, NO_WAITING, limit, edition=edition)


def lone_state():
    """What a refused fresh call answers with, whatever limit and edition it named."""
    return fresh_state(1, 0, DEFAULT_LIMIT)


def fresh(n, own, limit=DEFAULT_LIMIT, edition=0):
    if not numbers_valid(n, own):
        return FreshStation(BAD_NUMBER, lone_state())
    if not limit_valid(limit):
        return FreshStation(BAD_LIMIT, lone_state())
    if not edition_valid(edition):
        return FreshStation(BAD_EDITION, lone_state())
    return FreshStation(DONE, fresh_state(n, own, limit, edition))


# Post.

class PostedStation(NamedTuple):
    refusal: int
    station: Station


def desk_valid(desk):
    return desk in DESKS


def queue_full(station, desk):
    return queue_of(station, desk).length >= station.limit


def append_edit(station, body, desk):
    """Post to a station inside its limits: 15, 4, 17, 3 or 0."""
    if not desk_valid(desk):
        return PostedStation(BAD_DESK, station)
    if not is_edit(body):
        return PostedStation(NOT_AN_EDIT, station)
    if not channel_right(body, station.edition):
        return PostedStation(BAD_EDITION, station)
    if queue_full(station, desk):
        return PostedStation(QUEUE_FULL, station)
    return PostedStation(DONE, with_queue(station, desk, put_last(queue_of(station, desk), body)))


def post(station, body, desk=0):
    if not in_limits(station):
        return PostedStation(OUTSIDE_LIMITS, station)
    return append_edit(station, body, desk)


# Write frame.

class Written(NamedTuple):
    refusal: int
    length: int
    buffer: bytes


def held_records(station):
    """The table's records, by ascending station."""
    return [station.table[k] for k in range(station.n) if station.held[k]]


def count_writable(station):
    """The own record's count fits a frame; it is the table's, not the present count."""
    return station.table[station.own].count <= count_limit(station.n)


def written_frame(station):
    return frame_bytes(station.n, station.own, held_records(station), station.edition)


def write_frame(station, buffer):
    """The buffer comes back with the frame at its start and the rest kept."""
    if not in_limits(station):
        return Written(OUTSIDE_LIMITS, 0, buffer)
    if not count_writable(station):
        return Written(COUNT_TOO_LARGE, 0, buffer)
    length = frame_size(len(held_records(station)))
    if len(buffer) < length:
        return Written(BUFFER_SHORT, 0, buffer)
    return Written(DONE, length, written_frame(station) + buffer[length:])
