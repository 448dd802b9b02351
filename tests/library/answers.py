"""What the calls on stations and groups answer: the model's call on what the bytes are, and 9 last.

Each is given its arguments as C gives them, arrays for lent buffers, and gives the refusal and what every buffer then holds.
"""

from model import group, hearing, station, turns
from model.bodies import Body
from model.records import PLACES
from model.refusals import BUFFER_SHORT, DONE, OUTSIDE_LIMITS

from . import formats


def in_front(data, buffer):
    """The buffer with these bytes in its front."""
    return data + bytes(buffer[len(data):])


def station_fresh(state, n, own, *given):
    refusal, made = station.fresh(n, own, *given)
    if refusal or len(state) < formats.STATION:
        return refusal or BUFFER_SHORT, [state]
    return DONE, [in_front(formats.station_bytes(made), state)]


def station_fresh_limited(state, n, own, limit):
    return station_fresh(state, n, own, limit)


def station_fresh_edition(state, n, own, limit, edition):
    return station_fresh(state, n, own, limit, edition)


def station_post(state, desk, kind, event, argument, channel):
    given = formats.read_station(bytes(state))
    if given is None:
        return OUTSIDE_LIMITS, [state]
    refusal, after = station.post(given, Body(kind, event, argument, channel), desk)
    return refusal, [state if refusal else formats.station_bytes(after)]


def station_write(state, frame, length):
    given = formats.read_station(bytes(state))
    if given is None:
        return OUTSIDE_LIMITS, [state, frame, length]
    refusal, size, written = station.write_frame(given, bytes(frame))
    if refusal or not length:
        return refusal or BUFFER_SHORT, [state, frame, length]
    return DONE, [state, written, [size, *length[1:]]]


def station_hear(state, frame, taken):
    given = formats.read_station(bytes(state))
    if given is None:
        return OUTSIDE_LIMITS, [state, frame, taken]
    refusal, after, sources = hearing.hear(given, bytes(frame))
    if refusal or len(taken) < formats.TAKEN:
        return refusal or BUFFER_SHORT, [state, frame, taken]
    return DONE, [formats.station_bytes(after), frame, in_front(formats.taken_bytes(sources), taken)]


def station_turn(state, report):
    given = formats.read_station(bytes(state))
    if given is None:
        return OUTSIDE_LIMITS, [state, report]
    turned = turns.turn(given)
    if turned.refusal or len(report) < formats.TURN:
        return turned.refusal or BUFFER_SHORT, [state, report]
    return DONE, [formats.station_bytes(turned.station), in_front(formats.turn_bytes(turned), report)]


def group_fresh(state, n, *given):
    refusal, made = group.fresh(n, *given)
    if refusal or len(state) < formats.GROUP:
        return refusal or BUFFER_SHORT, [state]
    return DONE, [in_front(formats.group_bytes(made), state)]


def group_fresh_limited(state, n, limit):
    return group_fresh(state, n, limit)


def group_fresh_edition(state, n, limit, edition):
    return group_fresh(state, n, limit, edition)


def group_post(state, place, desk, kind, event, argument, channel):
    given = formats.read_group(bytes(state))
    if given is None:
        return OUTSIDE_LIMITS, [state]
    refusal, after = group.post(given, place, Body(kind, event, argument, channel), desk)
    return refusal, [state if refusal else formats.group_bytes(after)]


def group_round(state, masks, reports):
    """Masks that are not there count as 0."""
    given = formats.read_group(bytes(state))
    if given is None:
        return OUTSIDE_LIMITS, [state, masks, reports]
    sixteen = tuple(masks[:PLACES]) + (0,) * (PLACES - len(masks))
    refusal, after, told = group.round_of(given, sixteen)
    if refusal or len(masks) < PLACES or len(reports) < formats.ROUND:
        return refusal or BUFFER_SHORT, [state, masks, reports]
    return DONE, [formats.group_bytes(after), masks, in_front(b"".join(map(formats.report_bytes, told)), reports)]


CALLS = {f"relay_{one.__name__}": one for one in (
    station_fresh, station_post, station_write, station_hear, station_turn, group_fresh, group_post, group_round,
    station_fresh_limited, group_fresh_limited, station_fresh_edition, group_fresh_edition)}


def answer(name, *arguments):
    return CALLS[name](*arguments)
