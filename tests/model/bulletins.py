"""A12: bulletins beside a group (document 02).

Every station has a tuple of the bulletins that it holds, in no order that says anything; so a state can break each of
the limits that the document names. What stands for a station from N up is data that no call reads or changes.
"""

from typing import NamedTuple

from . import group as groups
from .bodies import INSERT, KINDS
from .group import heard_stations
from .queues import replaced
from .records import PLACES
from .refusals import ALREADY_ISSUED, BAD_NUMBER, DONE, NOT_AN_EDIT, OUTSIDE_LIMITS

MOST_OWN = 4


class Bulletin(NamedTuple):
    issuer: int
    tag: int
    event: int


class State(NamedTuple):
    n: int
    held: tuple     # of each of sixteen stations the bulletins that it holds


def event_in_limits(event):
    return KINDS[INSERT].event_least <= event <= KINDS[INSERT].event_most


def own(state, issuer):
    return [one for one in state.held[issuer] if one.issuer == issuer]


def in_limits(state):
    if not 1 <= state.n <= PLACES:
        return False
    for held in state.held[:state.n]:
        if len(set(held)) != len(held):
            return False
        if any(one.issuer >= state.n or one not in state.held[one.issuer] for one in held):
            return False
    for issuer in range(state.n):
        mine = own(state, issuer)
        if len(mine) > MOST_OWN or len({one.tag for one in mine}) != len(mine):
            return False
        if not all(event_in_limits(one.event) for one in mine):
            return False
    return True


# Fresh.

def fresh_state(n):
    return State(n, ((),) * PLACES)


def fresh(n):
    """The refusal and the state."""
    return (DONE, fresh_state(n)) if 1 <= n <= PLACES else (BAD_NUMBER, fresh_state(1))


# Issue.

def issue_refusal(state, bulletin):
    if not in_limits(state):
        return OUTSIDE_LIMITS
    if bulletin.issuer >= state.n:
        return BAD_NUMBER
    if not event_in_limits(bulletin.event):
        return NOT_AN_EDIT
    mine = own(state, bulletin.issuer)
    return ALREADY_ISSUED if len(mine) == MOST_OWN or bulletin.tag in {one.tag for one in mine} else DONE


def issue(state, bulletin):
    """The refusal and the state; the issuer shows the bulletin where it is done."""
    refusal = issue_refusal(state, bulletin)
    if refusal:
        return refusal, state
    i = bulletin.issuer
    return DONE, state._replace(held=replaced(state.held, i, (*state.held[i], bulletin)))


# Round.

def new_at(state, masks, place):
    """What a station shows: what those that it hears held before the round, and it did not; by issuer, then tag."""
    heard = {one for j in heard_stations(masks[place], place, state.n) for one in state.held[j]}
    return tuple(sorted(heard - set(state.held[place])))


def round_of(group, state, masks):
    """The group's round, the bulletins after it, and what each of sixteen stations shows."""
    silent = ((),) * PLACES
    if not in_limits(state) or state.n != groups.group_n(group):
        return groups.refused_round(OUTSIDE_LIMITS, group), state, silent
    done = groups.round_of(group, masks)
    if done.refusal:
        return done, state, silent
    shown = tuple(new_at(state, masks, place) if place < state.n else () for place in range(PLACES))
    return done, state._replace(held=tuple(held + new for held, new in zip(state.held, shown))), shown
