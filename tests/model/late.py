"""Runs in which a frame is heard in a later round than the one it was written in, which document 01 forbids (H4)."""

from typing import NamedTuple

from . import demand3, group as groups
from .frames import read_frame
from .hearing import FrameRefused, hear_records, held_record
from .listing import station_lines
from .queues import DEFAULT_LIMIT
from .records import CONFLICTING, NEWER, Record, age
from .station import Station, fresh_state, written_frame
from .turns import close_round


class LateRun(demand3.Run):
    """A run of demand 3 whose rounds may hear late frames, and its listing. A refused frame is dropped, as a host
    drops it, and its refusal noted."""

    def __init__(self, n, limit=DEFAULT_LIMIT):
        super().__init__(n, limit)
        self.frames = []        # the frames of each round, by station
        self.dropped = []       # the refusals of dropped frames
        self.lines = []

    def late_round(self, masks, late):
        """One round. late[p, s] is the round of the frame of s that p hears in place of this round's."""
        stations = self.group[:self.n]
        self.log.append(masks)
        self.frames.append([read_frame(written_frame(station)) for station in stations])
        turned = []
        for p, station in enumerate(stations):
            takings = []
            for s in groups.heard_stations(masks[p], p, self.n):
                try:
                    station, more = hear_records(station, self.frames[late.get((p, s), len(self.log)) - 1][s])
                    takings += more
                except FrameRefused as refused:
                    self.dropped.append(refused.refusal)
            result = close_round(station)
            turned.append(result.station)
            report = groups.report_of(takings, result)
            self.note(p, report)
            self.lines += station_lines(len(self.log), p, report)
        self.group = tuple(turned) + self.group[self.n:]


# Two stations: everything that can happen where frames come at most so many rounds late.

class Sent(NamedTuple):
    """A record that a station wrote of itself, with the true numbers that its labels stand for."""
    record: Record
    own: int            # which of the sender's broadcasts it is
    acknowledged: int   # which of the hearer's broadcasts it acknowledges


class Side(NamedTuple):
    """A station, and the true numbers that its labels stand for."""
    station: Station
    own: int            # the number of its present broadcast
    reached: int        # the broadcast of the other that it has reached
    held: int           # the broadcast of the record that it holds of the other; -1 where it holds none
    sent: tuple         # what it sent in the last rounds, oldest first


FRESH_SIDES = tuple(Side(fresh_state(2, own, DEFAULT_LIMIT), 1, 0, -1, ()) for own in (0, 1))


def hear_sent(side, sent):
    """A side after it hears a record, and whether it took the record for what it is not."""
    other = sent.record.station
    how = age(sent.record, held_record(side.station, other), 2)
    if how != NEWER:
        return side, how == CONFLICTING
    station, _ = hear_records(side.station, [sent.record])
    acknowledges = sent.record.labels[side.station.own] == side.station.labels[side.station.own]
    advances = station.labels[other] != side.station.labels[other]
    mistaken = (sent.own < side.held
                or acknowledges and sent.acknowledged != side.own
                or advances and sent.own != side.reached + 1)
    return side._replace(station=station, held=sent.own, reached=side.reached + advances), mistaken


def close(side):
    result = close_round(side.station)
    return side._replace(station=result.station, own=side.own + result.ended)


def shifted(side, own, other):
    """All numbers lowered, so that two states that differ only in how long they have run are the same state."""
    sent = tuple(Sent(record, mine - own, yours - other) for record, mine, yours in side.sent)
    held = side.held - other if side.held >= 0 else -1
    return Side(side.station, side.own - own, side.reached - other, held, sent)


def rebased(sides):
    """The sides with numbers as small as they can be: a multiple of three lower, as labels go by threes."""
    bases = []
    for side, other in (sides, sides[::-1]):
        least = min([side.own, other.reached] + [other.held] * (other.held >= 0)
                    + [sent.own for sent in side.sent] + [sent.acknowledged for sent in other.sent])
        bases.append(max(0, least) // 3 * 3)
    return shifted(sides[0], *bases), shifted(sides[1], *bases[::-1])


def explore(lateness):
    """All states of two stations that hear nothing, this round's frame or one up to so many rounds old, each in each
    round: how many there are, and None; or where a record is mistaken, the number of rounds to the first such."""
    seen, layer, rounds = {FRESH_SIDES}, [FRESH_SIDES], 0
    while layer:
        rounds, following = rounds + 1, []
        for sides in layer:
            sent = [(side.sent + (Sent(side.station.table[place], side.own, side.reached),))[-lateness - 1:]
                    for place, side in enumerate(sides)]
            after = []
            for place, side in enumerate(sides):
                side = side._replace(sent=sent[place][-lateness:] if lateness else ())
                heard = [hear_sent(side, record) for record in sent[1 - place]]
                if any(mistaken for _, mistaken in heard):
                    return len(seen), rounds
                after.append({close(result) for result in [side] + [result for result, _ in heard]})
            for found in {rebased((first, second)) for first in after[0] for second in after[1]} - seen:
                seen.add(found)
                following.append(found)
        layer = following
    return len(seen), None
