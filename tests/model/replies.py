"""Replies stay behind what they reply to (document 02, A14), tried on one list of calls.

An edit is told by its source, its desk and its number among that desk's accepted posts, and not by
its body. Which edit an entry of an aired list is follows from its place: entry k of a source is the
k-th edit that the source started. A second run of the same calls, in which no two accepted bodies are
equal, shows which edit it truly is.
"""

from itertools import chain
from typing import NamedTuple

from . import demand3
from .bodies import DROP, Body, is_edit
from .lines import PostLine
from .queues import DEFAULT_LIMIT


class Edit(NamedTuple):
    source: int
    desk: int
    number: int     # from 0 on, among the accepted posts of the desk

    def __str__(self):
        return f"edit {self.number} of desk {self.desk} at {self.source}"


class Reply(NamedTuple):
    """An accepted post, and how many edits its station had aired by then."""
    edit: Edit
    seen: int


class Run(demand3.Run):
    """A run that notes its accepted posts in their order."""

    def __init__(self, n, limit, edition=0):
        super().__init__(n, limit, edition)
        self.replies = []
        self.edit_of = {}       # the last accepted post with each body

    def post(self, place, body, desk=0):
        already = self.posts()
        super().post(place, body, desk)
        if self.posts() > already:
            edit = Edit(place, desk, len(self.accepted[place][desk]) - 1)
            self.replies.append(Reply(edit, len(self.aired[place])))
            self.edit_of[body] = edit

    def posts(self):
        return sum(len(posts) for desks in self.accepted for posts in desks)


# Calls with other bodies.

def with_bodies(calls, body_of):
    """Another body, by the number of the call, for each that may be posted; its channel stays."""
    return [call._replace(body=body_of(number)._replace(channel=call.body.channel))
            if isinstance(call, PostLine) and is_edit(call.body) else call
            for number, call in enumerate(calls, 1)]


def all_different(calls):
    return with_bodies(calls, lambda number: Body(DROP, number, 0))


def run_of(n, calls, limit, edition=0):
    run = Run(n, limit, edition)
    for call in calls:
        if isinstance(call, PostLine):
            run.post(call.station, call.body, call.desk)
        else:
            run.round(call.masks)
    return run


# Which edits the entries of the aired lists are.

def started_edits(run, source):
    """The edits that a station started: the k-th start of a desk is its k-th accepted post."""
    numbers = [0, 0]
    edits = []
    for desk, _ in run.starts[source]:
        edits.append(Edit(source, desk, numbers[desk]))
        numbers[desk] += 1
    return edits


def by_place(run):
    """By station and entry, the edit that the entry's place tells; None where nothing was started."""
    started = [started_edits(run, source) for source in range(run.n)]
    return [edits_in(aired, started) for aired in run.aired]


def edits_in(aired, started):
    counts = [0] * len(started)
    edits = []
    for source, _ in aired:
        edits.append(started[source][counts[source]] if counts[source] < len(started[source]) else None)
        counts[source] += 1
    return edits


def by_body(run):
    """The same where every accepted body is another."""
    return [[run.edit_of[body] for _, body in aired] for aired in run.aired]


# The sentences. Each gives what breaks it, in words, or nothing.

def places_tell_the_edit(told, true):
    for q, (ours, theirs) in enumerate(zip(told, true)):
        if len(ours) != len(theirs):
            yield f"the list of {q} has {len(ours)} entries, and {len(theirs)} with other bodies"
        for i, (one, other) in enumerate(zip(ours, theirs)):
            if one != other:
                yield f"entry {i} of {q} is {one} by its place, and is truly {other}"


def entries_are_posts(run, told):
    for q, edits in enumerate(told):
        for i, (edit, (source, body)) in enumerate(zip(edits, run.aired[q])):
            posts = run.accepted[edit.source][edit.desk]
            if edit.source != source or edit.number >= len(posts) or posts[edit.number] != body:
                yield f"entry {i} of {q}, {body} of {source}, is not {edit}"


def entries_differ(told):
    for q, edits in enumerate(told):
        for i, edit in enumerate(edits):
            if edit in edits[:i]:
                yield f"{edit} is twice in the list of {q}"


def replies_stay_behind(run, edits):
    """In each list that has a post, all that its station had aired before it stands before it."""
    for reply, seen in run.replies:
        for q in range(run.n):
            if reply not in edits[q]:
                continue
            at = edits[q].index(reply)
            for x in edits[reply.source][:seen]:
                if x not in edits[q]:
                    yield f"{q} has aired {reply} without {x}, which {reply.source} had aired before"
                elif edits[q].index(x) >= at:
                    yield f"{q} has aired {reply} before {x}, which {reply.source} had aired before"


def first_fault(n, calls, limit=DEFAULT_LIMIT, edition=0):
    """What the first broken sentence says, or None; the bodies of the calls may be equal."""
    run, twin = run_of(n, calls, limit, edition), run_of(n, all_different(calls), limit, edition)
    told, true = by_place(run), by_body(twin)
    faults = chain(places_tell_the_edit(told, true), entries_are_posts(run, told), entries_differ(told),
                   replies_stay_behind(run, told), replies_stay_behind(twin, true))
    return next(faults, None)
