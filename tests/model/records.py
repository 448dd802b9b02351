"""Labels and records (document 01, "Bodies, labels and records")."""

from typing import NamedTuple

from .bodies import EMPTY, Body, body_right

PLACES = 16  # the most stations; every array of the state has this many entries


def successor(label):
    return (label + 1) % 3


def pack(labels):
    """The label of station k at bits 2k and 2k + 1 of one number."""
    return sum([label << (2 * k) for k, label in enumerate(labels)])


def unpack(word):
    """The sixteen two-bit fields of a packed word; a field may be 3, which no label is."""
    return tuple([(word >> (2 * k)) & 3 for k in range(PLACES)])


class Record(NamedTuple):
    station: int
    count: int
    body: Body
    labels: tuple  # sixteen entries; those from N up are no part of the record


NO_RECORD = Record(0, 0, EMPTY, (0,) * PLACES)


def own_label(record):
    return record.labels[record.station]


def newer(seen, held):
    """Whether a seen record is newer than the held one of its station; held is None where none is."""
    if held is None:
        return True
    if own_label(seen) == successor(own_label(held)):
        return True
    return own_label(seen) == own_label(held) and seen.count > held.count


NEWER, SAME, CONFLICTING, OLDER = "newer", "same", "conflicting", "older"


def age(seen, held, n):
    """What a seen record is beside the held one of its station, among n stations (document 02, A4)."""
    if newer(seen, held):
        return NEWER
    if (own_label(seen), seen.count) != (own_label(held), held.count):
        return OLDER
    alike = seen.body == held.body and seen.labels[:n] == held.labels[:n]
    return SAME if alike else CONFLICTING


def count_limit(n):
    """The largest count of a record in a frame, and of a held record of another station."""
    return 2 * (n - 1)


def labels_in_limits(labels, n):
    """Only the first n labels are read, and n is at least 1; labels are never negative."""
    return max(labels[:n]) <= 2


def record_in_limits(record, n, most, edition):
    """The limits that frames and tables share: the count at most the given one, body, channel and
    labels."""
    return (record.count <= most
            and body_right(record.body, edition)
            and labels_in_limits(record.labels, n))
