"""Waiting edits and lanes: slots with a length, oldest first (document 01, "A station and its calls").

Slots past the length are no part of the state: no limit looks at them.
"""

from typing import NamedTuple

from .bodies import EMPTY

CAPACITY = 32         # the most that a queue has room for, whatever the station's limit
DEFAULT_LIMIT = 8     # where none is named (document 02, A2)
LANE_LIMIT = 2
OWN_LANE_LIMIT = 1


class Queue(NamedTuple):
    length: int
    slots: tuple


NO_WAITING = Queue(0, (EMPTY,) * CAPACITY)
NO_LANE = Queue(0, (EMPTY,) * LANE_LIMIT)


def replaced(entries, k, value):
    """The entries with another value at place k."""
    return entries[:k] + (value,) + entries[k + 1:]


def contents(queue):
    return queue.slots[:queue.length]


def put_last(queue, body):
    return Queue(queue.length + 1, replaced(queue.slots, queue.length, body))


def without_oldest(queue):
    """The others move up by one place, and the place that becomes free holds Empty."""
    return Queue(queue.length - 1, queue.slots[1:queue.length] + (EMPTY,) + queue.slots[queue.length:])


# A lane that is changed has Empty in its unused places.

def lane_of(bodies):
    return Queue(len(bodies), tuple(bodies) + (EMPTY,) * (LANE_LIMIT - len(bodies)))


def lane_with(lane, body):
    return lane_of(contents(lane) + (body,))


def lane_without_oldest(lane):
    return lane_of(contents(lane)[1:])
