"""Frames as bytes (document 01, "Frame bytes" and "Turned down"; document 02, A9)."""

from .bodies import EDITIONS, Body
from .records import PLACES, Record, count_limit, pack, record_in_limits, unpack
from .refusals import (BAD_EDITION, BAD_FRAME_ADDRESS, BAD_FRAME_SHAPE, BAD_NUMBER, BAD_RECORD,
                       DONE)

HEAD_SIZE = 4
RECORD_SIZE = 16


def frame_size(records):
    return HEAD_SIZE + RECORD_SIZE * records


def numbers_valid(n, own):
    """N is 1 to 16 and the station number is below it."""
    return 1 <= n <= PLACES and 0 <= own < n


# One record, in its own sixteen bytes.

def record_bytes(record, n):
    """Labels from n up are written 0."""
    return (bytes([record.station, record.count, record.body.kind, record.body.channel])
            + record.body.event.to_bytes(4, "little")
            + record.body.argument.to_bytes(4, "little", signed=True)
            + pack(record.labels[:n]).to_bytes(4, "little"))


def read_record(part):
    """The record in sixteen bytes, not yet judged; byte 3 is the channel."""
    body = Body(part[2],
                int.from_bytes(part[4:8], "little"),
                int.from_bytes(part[8:12], "little", signed=True),
                part[3])
    return Record(part[0], part[1], body, unpack(int.from_bytes(part[12:16], "little")))


# Whole frames.

def frame_bytes(n, sender, records, edition=0):
    head = bytes([n, sender, len(records), edition])
    return head + b"".join(record_bytes(record, n) for record in records)


def record_parts(data):
    """The sixteen bytes of each record of a frame of the right length."""
    return [data[at:at + RECORD_SIZE] for at in range(HEAD_SIZE, len(data), RECORD_SIZE)]


def read_frame(data):
    """The records of a frame of the right length, in order."""
    return [read_record(part) for part in record_parts(data)]


# The frame check, refusal by refusal.

def shape_right(data):
    return (len(data) >= HEAD_SIZE
            and 1 <= data[2] <= PLACES
            and data[3] in EDITIONS
            and len(data) == frame_size(data[2]))


def address_right(data, n, own, edition):
    return data[3] == edition and data[0] == n and data[1] != own and data[1] < n


def stations_right(stations, n, sender):
    """Strictly ascending, below n, the sender's among them."""
    ascending = all(low < high for low, high in zip(stations, stations[1:]))
    return ascending and all(k < n for k in stations) and sender in stations


def frame_record_in_limits(record, n, edition):
    return (record_in_limits(record, n, count_limit(n), edition)
            and all(label == 0 for label in record.labels[n:]))


def records_right(data, n, edition):
    records = read_frame(data)
    return (stations_right([record.station for record in records], n, data[1])
            and all(frame_record_in_limits(record, n, edition) for record in records))


def frame_refusal(data, n, own, edition=0):
    """5, 6, 7 or 0, for a valid n, own number and edition."""
    if not shape_right(data):
        return BAD_FRAME_SHAPE
    if not address_right(data, n, own, edition):
        return BAD_FRAME_ADDRESS
    if not records_right(data, n, edition):
        return BAD_RECORD
    return DONE


def check_frame(data, n, own, edition=0):
    """The frame check that the host calls: 1, 17, 5, 6, 7 or 0."""
    if not numbers_valid(n, own):
        return BAD_NUMBER
    if edition not in EDITIONS:
        return BAD_EDITION
    return frame_refusal(data, n, own, edition)
