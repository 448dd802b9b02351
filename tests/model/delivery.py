"""By when an accepted edit is aired everywhere, tried on one list of calls (beyond documents 01 and 02).

In some rounds news has the delay D if after each of them that leaves room for it every two stations
have a relay that arrives within D rounds. An edit that its desk accepted after u rounds, behind i
waiting edits of that desk, is then aired everywhere by round u + D(6i + 10), and by u + D(3i + 7)
where the other desk has nothing waiting and posts nothing.
"""

from itertools import chain
from typing import NamedTuple

from . import replies
from .lines import PostLine
from .links import Links
from .queues import DEFAULT_LIMIT
from .station import DESKS, queue_of

ROW = 3         # so many delays bring every station a row
APART = 1       # the rows aired at two stations differ by so many at most


class Post(NamedTuple):
    edit: replies.Edit
    after: int      # the rounds done when it was accepted
    behind: int     # the waiting edits of its desk then
    first: bool     # whether nothing waited at the other desk


class Run(replies.Run):
    """A run that notes when everything is aired."""

    def __init__(self, n, limit, edition=0):
        super().__init__(n, limit, edition)
        self.posted = []
        self.aired_in = [[] for _ in range(n)]      # by station and entry, the round
        self.rows = [[0] for _ in range(n)]         # by station, the rows aired by each round from 0 on

    def post(self, place, body, desk=0):
        already, before = self.posts(), self.group
        super().post(place, body, desk)
        if self.posts() > already:
            edit = self.replies[-1].edit
            waiting = [queue_of(before[place], d).length for d in DESKS]
            self.posted.append(Post(edit, len(self.log), waiting[desk], waiting[1 - desk] == 0))

    def note(self, place, report):
        super().note(place, report)
        self.rows[place].append(self.rows[place][-1] + report.aired)
        entries = self.aired_in[place]
        entries += [len(self.log)] * (len(self.aired[place]) - len(entries))


def run_of(n, calls, limit, edition=0):
    run = Run(n, limit, edition)
    for call in calls:
        if isinstance(call, PostLine):
            run.post(call.station, call.body, call.desk)
        else:
            run.round(call.masks)
    return run


# The delay of news.

def slowest(n, log):
    """For each round t from 0 on, how long news of any station takes to reach all others after it;
    more than there are rounds where it does not."""
    links = Links(n, log)
    never = len(log) + 1
    return [max((links.first_arrivals(a, t).get(b, t + never) - t
                 for a in range(n) for b in range(n) if a != b), default=0)
            for t in range(len(log) + 1)]


def has_delay(slow, delay, first, last):
    return all(slow[t] <= delay for t in range(first, last - delay + 1))


def least_bound(slow, after, factor):
    """The least bound of an edit accepted after so many rounds, inside the log; None where there is none."""
    rounds = len(slow) - 1
    for delay in range(1, (rounds - after) // factor + 1):
        if has_delay(slow, delay, after, after + delay * factor):
            return after + delay * factor
    return None


# The sentences. Each gives what breaks it, in words, or nothing.

def factors(run, post):
    """What the delay is multiplied with: for any edit, and for one whose desk is alone."""
    yield 6 * post.behind + 10
    later = run.posted[run.posted.index(post) + 1:]
    others = [edit for edit, *_ in later if edit.source == post.edit.source and edit.desk != post.edit.desk]
    if post.first and not others:
        yield 3 * post.behind + 7


def bounded_posts(run):
    """Each post with a bound, and the round in which it was aired last; one past the log where it was not."""
    slow = slowest(run.n, run.log)
    edits = replies.by_place(run)
    for post in run.posted:
        for factor in factors(run, post):
            bound = least_bound(slow, post.after, factor)
            if bound is not None:
                yield post, bound, max(aired_in(run, edits, q, post.edit) for q in range(run.n))


def aired_in(run, edits, q, edit):
    return run.aired_in[q][edits[q].index(edit)] if edit in edits[q] else len(run.log) + 1


def edits_in_time(run):
    for post, bound, aired in bounded_posts(run):
        if aired > bound:
            yield f"{post.edit}, accepted after round {post.after} behind {post.behind}, is aired everywhere in round {aired}, after {bound}"


def rows_close(run):
    for u in range(len(run.log) + 1):
        rows = [aired[u] for aired in run.rows]
        if max(rows) > min(rows) + APART:
            yield f"by round {u} the rows aired are {rows}"


def rows_come(run):
    """With the delay of each window: all catch up within it, and air one row more within three."""
    slow = slowest(run.n, run.log)
    rounds = len(run.log)
    for u in range(rounds + 1):
        delay = max(1, slow[u])
        if u + delay <= rounds and max(row[u] for row in run.rows) > min(row[u + delay] for row in run.rows):
            yield f"what one has aired by round {u} not all have aired by round {u + delay}"
        bound = least_bound(slow, u, ROW)
        if bound is not None and min(row[u] for row in run.rows) >= min(row[bound] for row in run.rows):
            yield f"from round {u} to {bound} not all have aired a row more"


def first_fault(n, calls, limit=DEFAULT_LIMIT, edition=0):
    """What the first broken sentence says, or None."""
    run = run_of(n, calls, limit, edition)
    return next(chain(edits_in_time(run), rows_close(run), rows_come(run)), None)


def nearest(run):
    """How near an edit comes to its bound: the largest part of the time to it that was taken; None where no edit has a bound."""
    return max(((aired - post.after) / (bound - post.after) for post, bound, aired in bounded_posts(run)), default=None)
