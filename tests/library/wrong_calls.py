"""Calls on stations and groups that are wrong on purpose, and the cases that must notice each of them.

A wrong call is given the right one, the name of the call, and what C gives: numbers, and an address and a length for a buffer.
"""

import contextlib
import ctypes
import sys
from array import array
from unittest import mock

from model import bodies, frames, group, hearing, outside, queues, records, station, states, turns
from model.bodies import EMPTY, NEUTRAL
from model.queues import NO_LANE, Queue, replaced
from model.records import PLACES, own_label
from model.station import DESKS, queue_of, with_queue

from . import answers, formats, group_cases as groups, rooms, station_cases as stations
from .cases import queue_of_length

HEAR, POST, WRITE, TURN = stations.HEAR, stations.POST, stations.WRITE, stations.TURN
U8 = ctypes.c_uint8
CACHED = "read_station", "station_bytes"  # of formats: what a wrong part made must not be kept for the right one


# The model's answer with a part of the model, or of the reading of bytes, replaced.

def by_model(**parts):
    """The answer of the model in which each named function is another one."""
    def wrong(_right, name, *lent):
        given = [one if isinstance(one, int) else rooms.held(one, typecode(name, place)) for place, one in enumerate(lent)]
        with contextlib.ExitStack() as stack:
            for cached in CACHED if any(hasattr(formats, part) for part in parts) else ():
                stack.enter_context(mock.patch.object(formats, cached, getattr(formats, cached).__wrapped__))
            for part, other in parts.items():
                for module in users(part):
                    stack.enter_context(mock.patch.object(module, part, other))
            refusal, after = answers.answer(name, *given)
        for one, old, new in zip([one for one in lent if not isinstance(one, int)], [one for one in given if isinstance(one, array)], after):
            put = array(old.typecode, new)
            ctypes.memmove(one[0], put.buffer_info()[0], put.itemsize * len(put))
        return refusal
    return wrong


def typecode(name, place):
    return {(WRITE, 2): "I", (groups.ROUND, 1): "H"}.get((name, place), "B")


def users(part):
    """The modules of the model, and the reading of bytes, that have a function of this name."""
    found = [module for key, module in sys.modules.items() if key.startswith("model.") and hasattr(module, part)]
    found += [module for module in (formats, answers) if hasattr(module, part)]
    assert found, part
    return found


# Parts that are wrong.

def larger_label(seen, held):
    return held is None or (own_label(seen), seen.count) > (own_label(held), held.count)


def acknowledged_though_old(hearer, record, right=hearing.hear_record):
    return right(hearing.acknowledge(hearer, record), record)


def always_acknowledged(one, record):
    return one._replace(acked=replaced(one.acked, record.station, True))


def count_twice(one, k, right=hearing.advance):
    return right(one, k)._replace(count=min(one.count + 2, 255))


def count_wraps(one, k, right=hearing.advance):
    return right(one, k)._replace(count=(one.count + 1) % 256)


def third_body(one, k, body, right=hearing.take):
    return one if one.lanes[k].length == 2 else right(one, k, body)


def own_heard(one, records):
    takings = []
    for record in records:
        one, body = hearing.hear_record(one, record)
        takings += [hearing.Taking(record.station, body)] * (body.kind > 0)
    return one, takings


def labels_from_n_up(one, record, right=hearing.hold):
    after = right(one, record)
    return after._replace(table=replaced(after.table, record.station, record))


def own_labels_from_n_up(one, right=turns.rewrite_own_record):
    after = right(one)
    own = after.table[one.own]
    return after._replace(table=replaced(after.table, one.own, own._replace(labels=own.labels[:one.n] + (0,) * (PLACES - one.n))))


def all_unacknowledged(one, right=turns.end):
    after, ended, *bodies = right(one)
    return after._replace(acked=after.acked[:one.n] + (False,) * (PLACES - one.n)) if ended else after, ended, *bodies


def newest_first(one, right=turns.choose_body):
    for desk in DESKS:
        queue = queue_of(one, desk)
        one = with_queue(one, desk, queue._replace(slots=queues.contents(queue)[::-1] + queue.slots[queue.length:]))
    return right(one)


def neutral_gives_way(one, right=turns.choose_body):
    after, body = right(one)
    return after._replace(first=1 - one.first) if body == NEUTRAL else after, body


def alone_stays(one, right=turns.choose_body):
    """Which desk goes first moves only where both wait."""
    after, body = right(one)
    return after if one.waiting.length and one.waiting_1.length else after._replace(first=one.first), body


def post_gives_way(one, desk, queue, right=station.with_queue):
    """A post lets the other desk go first."""
    after = right(one, desk, queue)
    return after._replace(first=1 - desk) if queue.length > queue_of(one, desk).length else after


def body_before_desk(one, body, desk, right=station.append_edit):
    return station.PostedStation(4, one) if right(one, body, 0).refusal == 4 else right(one, body, desk)


def desk_0_judged(one, right=station.in_limits):
    return right(one._replace(waiting_1=queues.NO_WAITING))


def oldest_left(lane):
    return Queue(lane.length - 1, (lane.slots[1], lane.slots[1]))


def slots_cleared(queue, body, right=queues.put_last):
    after = right(queue, body)
    return after._replace(slots=after.slots[:after.length] + (EMPTY,) * (len(after.slots) - after.length))


def one_slot_more(queue, right=queues.without_oldest):
    """All slots move up, those past the number too."""
    return Queue(queue.length - 1, queue.slots[1:] + (EMPTY,))


def present_values(one, right=station.held_records):
    """The frame of the present values, and not of the table's own record."""
    return [record if record.station != one.own else record._replace(count=min(one.count, 2 * (one.n - 1)), body=one.body)
            for record in right(one)]


def all_labels(record, _n, right=frames.record_bytes):
    return right(record._replace(labels=tuple(label & 3 for label in record.labels)), PLACES)


def own_not_judged(one, k, right=station.place_in_limits):
    return k == one.own or right(one, k)


def places_from_n_up(one, right=station.in_limits):
    """Judges the lanes of all sixteen places."""
    return right(one) and all(lane.length <= 2 for lane in one.lanes)


def last_label_not_judged(labels, n):
    return n < 2 or max(labels[:n - 1]) <= 2


def any_body(kind, channel, _zero, event, argument):
    """Bytes that are no body, read as one."""
    return formats.Body(0, 0, 0) if kind > 4 else formats.Body(kind, event * (kind > 1), argument * (kind in (2, 4)), channel * (kind > 1))


def any_flags(data, right=formats.read_station.__wrapped__):
    """Every flag above 1 read as 1."""
    data = bytearray(data)
    if len(data) == formats.STATION:
        for at in range(formats.HEAD, formats.WAITING_AT, formats.PLACE):
            data[at], data[at + 1] = min(data[at], 1), min(data[at + 1], 1)
    return right(bytes(data))


def any_zero(kind, channel, _zero, event, argument, right=formats.read_body):
    """The bytes of a body that must be zero read as zero."""
    return right(kind, channel, 0, event, argument)


# Request A4.

def with_ages(**others):
    """Ages of which some are taken for others."""
    return lambda seen, held, n, right=records.age: others.get(right(seen, held, n), right(seen, held, n))


def without_labels(seen, held, n, right=records.age):
    """The labels of the N stations not compared, but for the own one."""
    return right(seen, None if held is None else held._replace(
        labels=seen.labels[:held.station] + held.labels[held.station:held.station + 1] + seen.labels[held.station + 1:]), n)


def without_body(seen, held, n, right=records.age):
    return right(seen, None if held is None else held._replace(body=seen.body), n)


def others_of(one, found):
    return [record for record in found if record.station != one.own]


def own_conflicts(one, found, right=hearing.hear_records):
    if any(hearing.conflicts(one, record) for record in found):
        raise hearing.FrameRefused(14)
    return right(one, found)


def full_first(one, found, right=hearing.hear_records):
    """8 before 14, wherever they stand in the frame."""
    after = one
    for record in others_of(one, found):
        after, _ = hearing.hear_record(after, record)
    return right(one, found)


def first_record(one, found):
    """The first record that meets 8 or 14 decides."""
    takings = []
    for record in others_of(one, found):
        if hearing.conflicts(one, record):
            raise hearing.FrameRefused(14)
        one, body = hearing.hear_record(one, record)
        takings += [hearing.Taking(record.station, body)] * (body.kind > 0)
    return one, takings


def judged_before(given, masks):
    """All frames of a round judged against the table before the round."""
    shown = [frames.read_frame(station.written_frame(one)) for one in given]
    after, takings = [], []
    for place, before in enumerate(given):
        one, taken = before, []
        for sender in group.heard_stations(masks[place], place, len(given)):
            if any(hearing.conflicts(before, record) for record in others_of(before, shown[sender])):
                raise hearing.FrameRefused(14)
            for record in others_of(before, shown[sender]):
                one, body = hearing.hear_record(one, record)
                taken += [hearing.Taking(record.station, body)] * (body.kind > 0)
        after.append(one)
        takings.append(taken)
    return after, takings


def any_conflict_first(given, masks, right=group.hear_all):
    """A conflict in any frame goes before a full lane in an earlier one."""
    shown = [frames.read_frame(station.written_frame(one)) for one in given]
    for place, one in enumerate(given):
        for sender in group.heard_stations(masks[place], place, len(given)):
            if any(hearing.conflicts(one, record) for record in others_of(one, shown[sender])):
                raise hearing.FrameRefused(14)
    return right(given, masks)


# Request A9.

def channels_of(numbers):
    """Other channels of an edit in edition 1."""
    return lambda body, edition: body.channel in numbers if edition == 1 and bodies.edit_kind(body) else body.channel == 0


def channel_in_edition_0(body, edition, right=bodies.channel_right):
    return right(body, 1) if bodies.edit_kind(body) and body.channel else right(body, edition)


def channel_of_no_edit(body, edition, right=bodies.channel_right):
    return edition == 1 and not bodies.edit_kind(body) or right(body, edition)


def without_channel(body):
    return body._replace(channel=0)


def channels_not_compared(seen, held, n, right=records.age):
    plain = [None if one is None else one._replace(body=without_channel(one.body)) for one in (seen, held)]
    return right(*plain, n)


def no_channel_in_lanes(lane, body, right=queues.lane_with):
    return right(lane, without_channel(body))


def any_edition(given):
    n = group.group_n(given)
    return 1 <= n <= PLACES and all(one.n == n and one.own == place and station.in_limits(one) for place, one in enumerate(given[:n]))


def edition_from_n_up(n, limit, edition=0):
    return tuple(station.fresh_state(n, own, limit, edition) for own in range(n)) + (station.fresh_state(1, 0, 8, edition),) * (PLACES - n)


def any_first(data, right=formats.read_station.__wrapped__):
    """Every number above 1 of the desk that goes first read as 1."""
    at = formats.FIRST_AT
    return right(data[:at] + bytes([min(data[at], 1)]) + data[at + 1:] if len(data) == formats.STATION else data)


def desks_exchanged(one, right=formats.station_bytes.__wrapped__):
    return right(one._replace(waiting=one.waiting_1, waiting_1=one.waiting))


def front_of(data, right=formats.read_station.__wrapped__):
    """More bytes than a station has are read as one."""
    return right(data[:formats.STATION])


def unused_cleared(one, right=formats.station_bytes.__wrapped__):
    """Places from N up, slots past a length and records that are not held are written as zero."""
    return right(states.state_part(one) if 1 <= one.n <= PLACES else one)


def written_late(given, masks):
    """Frames written after some station has heard."""
    given, takings = list(given), []
    for place in range(len(given)):
        taken = []
        for sender in group.heard_stations(masks[place], place, len(given)):
            given[place], more = hearing.hear_records(given[place], frames.read_frame(station.written_frame(given[sender])))
            taken += more
        takings.append(taken)
    return given, takings


def descending(mask, place, n, right=group.heard_stations):
    return right(mask, place, n)[::-1]


def first_station_only(given, right=group.group_in_limits):
    n = group.group_n(given)
    return right(given[:1]) if n == 1 else 1 <= n <= PLACES and station.in_limits(given[0])


def numbers_not_judged(given):
    n = group.group_n(given)
    return 1 <= n <= PLACES and all(one.n == n and station.in_limits(one) for one in given[:n])


def any_n(given):
    n = group.group_n(given)
    return 1 <= n <= PLACES and all(one.own == place and station.in_limits(one) for place, one in enumerate(given[:n]))


def limit_from_n_up(n, limit, edition=0):
    return tuple(station.fresh_state(n, own, limit, edition) for own in range(n)) + (station.fresh_state(1, 0, limit),) * (PLACES - n)


def all_sixteen(given):
    return all(map(station.in_limits, given)) and group.group_n(given) >= 1


ENGINE = {
    "a larger label is newer": by_model(newer=larger_label),
    "an acknowledgement from a record that is not newer": by_model(hear_record=acknowledged_though_old),
    "an acknowledgement whatever the label": by_model(acknowledge=always_acknowledged),
    "a count that rises by 2": by_model(advance=count_twice),
    "a count that wraps after 255": by_model(advance=count_wraps),
    "Neutral in place of each body": by_model(take=lambda one, k, body, right=hearing.take: right(one, k, NEUTRAL)),
    "a lane of one is full": by_model(take=lambda one, k, body, right=hearing.take: right(
        one._replace(lanes=replaced(one.lanes, k, Queue(2 * (one.lanes[k].length > 0), one.lanes[k].slots))), k, body)),
    "a third body is dropped": by_model(take=third_body),
    "labels from N up taken from the frame": by_model(hold=labels_from_n_up),
    "an edit started while the own lane is full": by_model(may_start=lambda one: True),
    "conflicts passed over": by_model(conflicts=lambda one, record: False),
    "the same taken for conflicting, and the reverse": by_model(age=with_ages(same="conflicting", conflicting="same")),
    "an older record conflicts": by_model(age=with_ages(older="conflicting")),
    "a conflicting record is newer": by_model(age=with_ages(conflicting="newer")),
    "labels from N up compared": by_model(age=lambda seen, held, n, right=records.age: right(seen, held, PLACES)),
    "labels not compared": by_model(age=without_labels),
    "bodies not compared": by_model(age=without_body),
    "8 before 14": by_model(hear_records=full_first),
    "the first record of a frame that is refused decides": by_model(hear_records=first_record),
    "no row is aired": by_model(row_ready=lambda one: False),
    "nothing ends": by_model(all_acknowledged=lambda one: False),
    "only Empty starts": by_model(choose_body=lambda one: (one, EMPTY)),
    "the newest waiting edit first": by_model(choose_body=newest_first),
    "acknowledgements from N up cleared at an end": by_model(end=all_unacknowledged),
    "the own record is not rewritten": by_model(rewrite_own_record=lambda one: one),
    "labels from N up of the own record cleared": by_model(rewrite_own_record=own_labels_from_n_up),
    "a body left in the unused place of a lane": by_model(lane_without_oldest=oldest_left),
    "waiting slots past the number cleared by a post": by_model(put_last=slots_cleared),
    "waiting slots past the number moved by a start": by_model(without_oldest=one_slot_more),
    "a queue of one less than the limit is full": by_model(queue_full=lambda one, desk: queue_of(one, desk).length >= one.limit - 1),
    "a queue is full at 32 only": by_model(queue_full=lambda one, desk: queue_of(one, desk).length >= 32),
    "one limit over both desks": by_model(queue_full=lambda one, desk: one.waiting.length + one.waiting_1.length >= one.limit),
    "a queue is full where the other desk's is": by_model(queue_full=lambda one, desk, right=station.queue_full: right(one, 0) or right(one, 1)),
    "a queue is full where desk 0's is": by_model(queue_full=lambda one, desk, right=station.queue_full: right(one, 0)),
    "every post is desk 0's": by_model(append_edit=lambda one, body, desk, right=station.append_edit: right(one, body, desk if desk > 1 else 0)),
    "desk 2 posts": by_model(desk_valid=lambda desk: desk <= 2),
    "15 after 4": by_model(append_edit=body_before_desk),
    "the same desk twice while the other waits": by_model(other_desk=lambda desk: desk),
    "desk 0 before desk 1, always": by_model(next_desk=lambda one: 0 if one.waiting.length else 1 if one.waiting_1.length else None),
    "which desk goes first moved by Neutral": by_model(choose_body=neutral_gives_way),
    "which desk goes first not moved by a desk that waits alone": by_model(choose_body=alone_stays),
    "which desk goes first moved by a post": by_model(with_queue=post_gives_way),
    "desk 1 first on a fresh station": by_model(fresh_state=lambda *given, right=station.fresh_state: right(*given)._replace(first=1)),
    "the waiting edits of desk 1 not judged": by_model(in_limits=desk_0_judged),
    "a number above 1 of the desk that goes first read as 1": by_model(read_station=any_first),
    "the edits of desk 1 written before those of desk 0": by_model(station_bytes=desks_exchanged),
    "more may wait than the limit": by_model(waiting_in_limits=lambda waiting, limit, edition, right=station.waiting_in_limits: right(waiting, max(limit, 32), edition)),
    "the limit that is named not kept": by_model(fresh_state=lambda n, own, _limit, edition=0, right=station.fresh_state: right(n, own, 8, edition)),
    "a limit of 33": by_model(limit_valid=lambda limit: 1 <= limit <= 33),
    "a limit of 0": by_model(limit_valid=lambda limit: limit <= 32),
    "counts up to one more": by_model(count_limit=lambda n: 2 * n - 1),
    "counts up to one less": by_model(count_limit=lambda n: max(0, 2 * n - 3)),
    "the last label not judged": by_model(labels_in_limits=last_label_not_judged),
    "the own record and lane not judged": by_model(place_in_limits=own_not_judged),
    "lanes from N up judged": by_model(in_limits=places_from_n_up),
    "bytes that are no body read as one": by_model(read_body=any_body),
    "flags above 1 read as 1": by_model(read_station=any_flags),
    "a byte that must be zero not judged": by_model(read_body=any_zero),
    "an edit without a channel in edition 1": by_model(channel_right=channels_of(range(201))),
    "channel 201": by_model(channel_right=channels_of(range(1, 202))),
    "no channel 200": by_model(channel_right=channels_of(range(1, 200))),
    "no channel 1": by_model(channel_right=channels_of(range(2, 201))),
    "channels in edition 0": by_model(channel_right=channel_in_edition_0),
    "an edition above 1": by_model(edition_valid=lambda edition: True),
    "edition 0 alone": by_model(edition_valid=lambda edition: edition == 0),
    "the edition that is named not kept": by_model(fresh_state=lambda n, own, limit, _edition=0, right=station.fresh_state: right(n, own, limit)),
    "no channel in a lane": by_model(lane_with=no_channel_in_lanes),
    "what is not in use written as zero": by_model(station_bytes=unused_cleared),
}


# The right answer, and then something more.

def told(change):
    """The change is given the refusal, the call's name and its buffers; what it gives is the refusal."""
    def wrong(right, name, *lent):
        refusal = right(name, *lent)
        given = change(refusal, name, [one for one in lent if not isinstance(one, int)])
        return refusal if given is None else given
    return wrong


def flip(lent, at):
    if at < lent[1]:
        rooms.view(lent, U8)[at] ^= 1


def written_though_refused(number):
    def change(refusal, _name, buffers):
        if refusal and number < len(buffers):
            flip(buffers[number], 0)
    return told(change)


def written_past(name, number, at):
    def change(refusal, called, buffers):
        if refusal == 0 and called == name:
            flip(buffers[number], at(buffers))
    return told(change)


def one_for_another(name, given, other):
    return told(lambda refusal, called, _buffers: other if (called, refusal) == (name, given) else refusal)


def touches(name, number, after, writes):
    """Reads or writes the byte before or after a buffer; entries of numbers are bytes here too."""
    def wrong(right, called, *lent):
        refusal = right(called, *lent)
        if called == name:
            address, length = [one for one in lent if not isinstance(one, int)][number]
            width = {"I": 4, "H": 2}.get(typecode(called, number), 1)
            byte = U8.from_address(address + width * length if after else address - 1)
            if writes:
                byte.value ^= 1
            else:
                _ = byte.value
        return refusal
    return wrong


def outside_buffers(name, buffers):
    for number in range(buffers):
        for after in (False, True):
            for writes in (False, True):
                yield (f"{name} {'writes' if writes else 'reads'} {'after' if after else 'before'} buffer {number}",
                       touches(name, number, after, writes))


def before_two(name, judge):
    """Another refusal judged before 2."""
    def wrong(right, called, *lent):
        first = judge([one for one in lent if not isinstance(one, int)], lent) if called == name else 0
        return first or right(called, *lent)
    return wrong


STATION = {
    **ENGINE,
    "the own record heard": by_model(hear_records=own_heard),
    "the own record conflicts": by_model(hear_records=own_conflicts),
    "the present values written": by_model(held_records=present_values),
    "labels from N up written to a frame": by_model(record_bytes=all_labels),
    "more bytes than a station has accepted": by_model(read_station=front_of),
    "the taken stations in another order": by_model(taken_bytes=lambda taken, right=formats.taken_bytes: right(taken)[::-1]),
    "a turn's ended and started bodies exchanged": by_model(turn_bytes=lambda turn, right=formats.turn_bytes: right(
        turn._replace(ended_body=turn.started_body, started_body=turn.ended_body))),
    "written though refused: the state": written_though_refused(0),
    "written though refused: the second buffer": written_though_refused(1),
    "written though refused: the third buffer": written_though_refused(2),
    "a fresh station writes past its end": written_past(stations.FRESH, 0, lambda buffers: formats.STATION),
    "a frame written past its end": written_past(WRITE, 1, lambda buffers: rooms.view(buffers[2], ctypes.c_uint32)[0]),
    "a second length written": written_past(WRITE, 2, lambda buffers: 4 if buffers[2][1] > 1 else 1 << 30),
    "a seventeenth taken station": written_past(HEAR, 2, lambda buffers: 16),
    "a report written past its end": written_past(TURN, 1, lambda buffers: formats.TURN),
    "the heard frame changed": written_past(HEAR, 1, lambda buffers: 0),
    "the written station changed": written_past(WRITE, 0, lambda buffers: 2),
    "post gives 2 for 4": one_for_another(POST, 4, 2),
    "post gives 0 for 3": one_for_another(POST, 3, 0),
    "fresh gives 9 for 1": one_for_another(stations.FRESH, 1, 9),
    "13 before 1": before_two(stations.LIMITED, lambda _, lent: 13 if not 1 <= lent[3] <= 32 else 0),
    "9 before 13": one_for_another(stations.LIMITED, 13, 9),
    "hear gives 7 for 8": one_for_another(HEAR, 8, 7),
    "write gives 9 for 10": one_for_another(WRITE, 10, 9),
    "9 before the others at hearing": before_two(HEAR, lambda buffers, _: 9 if buffers[2][1] < 16 else 0),
    "9 before the others at a turn": before_two(TURN, lambda buffers, _: 9 if buffers[1][1] < formats.TURN else 0),
    "9 before the others at writing": before_two(WRITE, lambda buffers, _: 9 if buffers[2][1] < 1 else 0),
    "5 before 2": before_two(HEAR, lambda buffers, _: 5 if buffers[1][1] % 16 != 4 else 0),
    "4 before 2": before_two(POST, lambda _, lent: 4 if lent[2] > 4 else 0),
    "15 before 2": before_two(POST, lambda _, lent: 15 if lent[1] > 1 else 0),
    "post gives 4 for 15": one_for_another(POST, 15, 4),
    "post gives 4 for 17": one_for_another(POST, 17, 4),
    "17 before 4": before_two(POST, lambda _, lent: 17 if lent[5] > 200 else 0),
    "3 before 17": one_for_another(POST, 17, 3),
    "17 before 13": before_two(stations.EDITION, lambda _, lent: 17 if lent[4] > 1 else 0),
    "9 before 17": one_for_another(stations.EDITION, 17, 9),
    "hear gives 5 for 6": one_for_another(HEAR, 6, 5),
    "the other edition heard": by_model(address_right=lambda data, n, own, _edition, right=frames.address_right: right(data, n, own, data[3])),
    "5 for the other edition": by_model(shape_right=lambda data, right=frames.shape_right: right(data) and data[3] == 0),
    "channels not compared": by_model(age=channels_not_compared),
    "a channel of what is no edit": by_model(channel_right=channel_of_no_edit),
    "the edition not written": by_model(written_frame=lambda one, right=station.written_frame: right(one._replace(edition=0))),
    **dict(outside_buffers(stations.FRESH, 1)), **dict(outside_buffers(stations.LIMITED, 1)), **dict(outside_buffers(stations.EDITION, 1)), **dict(outside_buffers(POST, 1)), **dict(outside_buffers(WRITE, 3)),
    **dict(outside_buffers(HEAR, 3)), **dict(outside_buffers(TURN, 2)),
}

GROUP = {
    **{name: wrong for name, wrong in ENGINE.items() if name != "a count that wraps after 255"},
    "frames written after some station has heard": by_model(hear_all=written_late),
    "all frames judged against the table before the round": by_model(hear_all=judged_before),
    "14 before an earlier frame's 8": by_model(hear_all=any_conflict_first),
    "frames heard by descending sender": by_model(heard_stations=descending),
    "the bits of a mask from N up read": by_model(heard_stations=lambda mask, place, n: [
        j for j in range(n) if j != place and mask >> j & 1 or mask >> n & 1 and j == (place + 1) % n != place]),
    "a station hears itself": by_model(heard_stations=lambda mask, place, n: [j for j in range(n) if mask >> j & 1],
                                       hear_records=own_heard),
    "only the first station judged": by_model(group_in_limits=first_station_only),
    "numbers not judged against places": by_model(group_in_limits=numbers_not_judged),
    "another n not judged": by_model(group_in_limits=any_n),
    "another edition not judged": by_model(group_in_limits=any_edition),
    "the edition that is named from N up": by_model(fresh_group_state=edition_from_n_up),
    "17 before 1": before_two(groups.EDITION, lambda _, lent: 17 if lent[3] > 1 else 0),
    "post gives 3 for 17": one_for_another(groups.POST, 17, 3),
    "stations from N up judged": by_model(group_in_limits=all_sixteen),
    "10 judged at the first station alone": by_model(count_writable=lambda one: one.own > 0 or one.table[0].count <= 2 * (one.n - 1)),
    "takings not told": by_model(report_of=lambda takings, told, right=group.report_of: right([], told)),
    "takings in another order": by_model(report_of=lambda takings, told, right=group.report_of: right(takings[::-1], told)),
    "stations from N up made fresh": by_model(group_bytes=lambda given, right=formats.group_bytes: right(
        tuple(given[:given[0].n]) + group.lone_group_state()[given[0].n:] if given[0].n <= 16 else given)),
    "written though refused: the group": written_though_refused(0),
    "written though refused: the masks": written_though_refused(1),
    "written though refused: the reports": written_though_refused(2),
    "a fresh group writes past its end": written_past(groups.FRESH, 0, lambda buffers: formats.GROUP),
    "reports written past their end": written_past(groups.ROUND, 2, lambda buffers: formats.ROUND),
    "a mask changed": written_past(groups.ROUND, 1, lambda buffers: 0),
    "round gives 10 for 8": one_for_another(groups.ROUND, 8, 10),
    "round gives 8 for 10": one_for_another(groups.ROUND, 10, 8),
    "post gives 4 for 1": one_for_another(groups.POST, 1, 4),
    "9 before the others at a round": before_two(groups.ROUND, lambda buffers, _: 9 if buffers[1][1] < 16 else 0),
    "13 before 1": before_two(groups.LIMITED, lambda _, lent: 13 if not 1 <= lent[2] <= 32 else 0),
    "the limit that is named from N up": by_model(fresh_group_state=limit_from_n_up),
    "post gives 15 for 1": one_for_another(groups.POST, 1, 15),
    "15 before 1": before_two(groups.POST, lambda _, lent: 15 if lent[2] > 1 else 0),
    "1 before 2": before_two(groups.POST, lambda _, lent: 1 if lent[1] > 15 else 0),
    "fewer masks accepted": told(lambda refusal, name, buffers: 0 if (name, refusal) == (groups.ROUND, 9) else refusal),
    **dict(outside_buffers(groups.FRESH, 1)), **dict(outside_buffers(groups.LIMITED, 1)), **dict(outside_buffers(groups.EDITION, 1)), **dict(outside_buffers(groups.POST, 1)), **dict(outside_buffers(groups.ROUND, 3)),
}


# The cases that must notice them: fewer than the whole test has.

def busy(rng, count, least=1, own=None):
    """Stations with much in use: lanes and queues of each length, all acknowledged; of a given n and number where they are given."""
    for _ in range(count):
        n = rng.randint(1, PLACES) if own is None else least
        s = states.random_station(rng, n, rng.randrange(n) if own is None else own, rng.randrange(2) if own is None else 1)
        own_lane = s.lanes[s.own] if rng.random() < 0.5 else NO_LANE
        full = [Queue(one, (states.random_edit(rng, s.edition), states.random_edit(rng, s.edition))) for one in (1, 2)]
        s = s._replace(acked=(True,) * n + s.acked[n:], lanes=replaced(tuple(rng.choices(full, k=n)) + s.lanes[n:], s.own, own_lane),
                       waiting=queue_of_length(rng, rng.choice((0, 1, s.limit - 1, s.limit)), s.edition),
                       waiting_1=queue_of_length(rng, rng.choice((0, 1, s.limit - 1, s.limit)), s.edition))
        yield s


def station_cases(rng):
    found = [case for _, case in stations.at_once(rng, HEAR, 2)]
    for name in (stations.FRESH, stations.LIMITED, stations.EDITION, POST, WRITE, TURN):
        found += [case for _, case in stations.at_once(rng, name, 4)]
    for s in busy(rng, 80):
        found += stations.all_calls(rng, formats.station_bytes(s), stations.some_frame(rng, s))
    found += rng.sample(list(stations.desks(rng)), 150)
    found += stations.drawn(rng, 150)
    found += rng.sample(list(stations.editions(rng)), 900)
    found += [case for _, case in stations.false_frames(rng, 4)]
    found += channel_edges(rng)
    found += [(stations.LIMITED, stations.buffer(rng, formats.STATION), 2, 1, limit) for limit in (0, 1, 32, 33)]
    found += [(stations.FRESH, stations.buffer(rng, room), 5, 3) for room in stations.around(formats.STATION)]
    found += stations.buffers(rng)
    found += stations.outside_limits(rng)
    found += stations.each_byte(rng, 3, 1, 2)
    return found


def channel_edges(rng):
    """Posts of the channels at their limits, in both editions, and records that differ in their channel alone."""
    for edition in bodies.EDITIONS:
        s = station.fresh_state(3, 1, 8, edition)
        for channel in (0, 1, 200, 201, 255, 256):
            yield stations.post(rng, formats.station_bytes(s), bodies.Body(3, 5, 0, channel), 0)
    s = station.fresh_state(3, 1, 8, 1)
    held = records.Record(2, 0, bodies.Body(3, 5, 0, 7), (0, 0, 1) + (0,) * 13)
    s = s._replace(held=replaced(s.held, 2, True), table=replaced(s.table, 2, held))
    sender = records.Record(0, 0, EMPTY, (1,) + (0,) * 15)
    for body in (held.body, bodies.Body(3, 5, 0, 8)):
        yield stations.hear(rng, formats.station_bytes(s), frames.frame_bytes(3, 0, [sender, held._replace(body=body)], 1))


def busy_groups(rng, count):
    for _ in range(count):
        n = rng.randint(2, 5)
        beyond = groups.any_beyond(rng, states.random_group(rng, n, 1), n)[n:]
        some = [next(busy(rng, 1, n, place)) for place in range(n)]
        yield n, tuple(one._replace(table=replaced(one.table, one.own, one.table[one.own]._replace(count=0))) for one in some) + beyond


def named_groups(rng):
    """Groups that show one fault each: two stations exchanged; a station whose broadcast ends while its own lane is full and an edit waits."""
    fresh = group.fresh_group_state(4, queues.DEFAULT_LIMIT)
    yield fresh[:1] + (fresh[2], fresh[1]) + fresh[3:]
    edit = states.random_edit(rng)
    ends = station.post(outside.with_lane(fresh[1], 1, edit), edit, rng.choice(DESKS)).station
    yield replaced(fresh, 1, ends._replace(acked=tuple(k < 4 or acked for k, acked in enumerate(ends.acked))))


def group_cases(rng):
    found = []
    for given in named_groups(rng):
        found.append(groups.post(rng, formats.group_bytes(given), 1, states.random_edit(rng)))
        found.append(groups.round_of(rng, formats.group_bytes(given), array("H", [0] * PLACES)))
    for name in (groups.FRESH, groups.LIMITED, groups.EDITION, groups.POST, groups.ROUND):
        found += [case for _, case in groups.at_once(rng, name, 1)]
    found += [(groups.LIMITED, groups.buffer(rng, formats.GROUP), n, limit) for n in (1, 3) for limit in (0, 1, 32, 33)]
    for n, given in busy_groups(rng, 20):
        found += [groups.post(rng, formats.group_bytes(given), place, states.random_edit(rng, given[0].edition), desk) for place in range(n) for desk in DESKS]
        found.append(groups.round_of(rng, formats.group_bytes(given), array("H", [0] * PLACES)))
    found += rng.sample(list(groups.desks(rng)), 60)
    found += groups.drawn(rng, 30)
    found += groups.another_n(rng)
    found += groups.mixed(rng)
    found += [case for _, case in groups.false_tables(rng, 3)]
    found += [groups.post(rng, formats.group_bytes(group.fresh_group_state(2, 8, edition)), 1, bodies.Body(3, 5, 0, channel), 0)
              for edition in bodies.EDITIONS for channel in (0, 1, 200, 201, 255)]
    found += [(groups.EDITION, groups.buffer(rng, formats.GROUP), n, 8, edition) for n in (1, 3) for edition in (0, 1, 2)]
    found += [(groups.FRESH, groups.buffer(rng, room), 5) for room in groups.around(formats.GROUP)]
    found += groups.buffers(rng)
    found += groups.outside_limits(rng, (3,))
    found += groups.no_state(rng, 1)
    found += groups.some_bytes(rng, 3, 60)
    return found
