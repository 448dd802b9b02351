"""The sentences of demand 3, tried on one list of calls (document 01, "A group and its rounds"), and
those of document 02, A7, on two desks.

A run starts from a fresh group and notes what the calls report. The sentences look at these notes, at
the group that the list leaves, and at the link log; the end rule is worked out from the log alone.
"""

from . import group as groups
from .bodies import EMPTY_KIND, edit_kind
from .hearing import Taking
from .lines import PostLine
from .links import Links
from .queues import DEFAULT_LIMIT, LANE_LIMIT, contents
from .records import count_limit
from .refusals import DONE
from .station import DESKS, queue_of


class Run:
    def __init__(self, n, limit=DEFAULT_LIMIT, edition=0):
        self.n = n
        self.group = groups.fresh(n, limit, edition).group
        self.log = []                                           # the masks of each round
        self.round_refusals = []
        self.accepted = [[[], []] for _ in range(n)]            # accepted[p][d]: posts of desk d at p
        self.starts = [[] for _ in range(n)]                    # started edits, each with its desk
        self.passed = [[0, 0] for _ in range(n)]                # passed[p][d]: see note_desks
        self.out_of_turn = []                                   # stations that broke the turns of desks
        self.taken = [[[] for _ in range(n)] for _ in range(n)]  # taken[p][s]: by p from s
        self.started = [[] for _ in range(n)]                   # started bodies, Empty left out
        self.aired = [[] for _ in range(n)]                     # aired edits with their sources
        self.ends = [[] for _ in range(n)]                      # the rounds that reported an end

    def post(self, place, body, desk=0):
        refusal, self.group = groups.post(self.group, place, body, desk)
        if refusal == DONE:
            self.accepted[place][desk].append(body)

    def round(self, masks):
        before = self.group
        refusal, self.group, reports = groups.round_of(before, masks)
        self.log.append(masks)
        self.round_refusals.append(refusal)
        for place in range(self.n):
            self.note(place, reports[place])
            if edit_kind(reports[place].started_body):
                self.note_desks(place, before[place], reports[place].started_body)

    def note_desks(self, place, before, body):
        """An edit started: of which desk, by the waiting edits before and after the round. Each other
        desk that waited was passed once more since its oldest became its oldest."""
        after = self.group[place]
        desk, = [d for d in DESKS if queue_of(after, d).length < queue_of(before, d).length]
        waiting = [d for d in DESKS if queue_of(before, d).length > 0]
        turn = 1 - self.starts[place][-1][0] if self.starts[place] else 0
        if len(waiting) == 2 and desk != turn:
            self.out_of_turn.append(place)
        self.passed[place][desk] = 0
        self.passed[place][1 - desk] += 1 - desk in waiting
        self.starts[place].append((desk, body))

    def note(self, place, report):
        for source, body in groups.used_takings(report):
            self.taken[place][source].append(body)
        self.aired[place] += [Taking(source, body) for source, body in enumerate(report.row)
                              if edit_kind(body)]
        if report.ended:
            self.ends[place].append(len(self.log))
        if report.started_body.kind != EMPTY_KIND:
            self.started[place].append(report.started_body)
            self.taken[place][place].append(report.started_body)


def begins(first, second):
    """The first list is a beginning of the second."""
    return first == second[:len(first)]


# The sentences. Each gives what breaks it, in words, or nothing.

def taken_begins_started(run):
    for p in range(run.n):
        for s in range(run.n):
            if not begins(run.taken[p][s], run.started[s]):
                yield f"what {p} has taken from {s} is no beginning of what {s} started"


def aired_lists_agree(run):
    shortest_first = sorted(range(run.n), key=lambda p: len(run.aired[p]))
    # Neighbours are enough: being a beginning carries over from one list to the next.
    for p, q in zip(shortest_first, shortest_first[1:]):
        if not begins(run.aired[p], run.aired[q]):
            yield f"of the aired lists of {p} and {q} neither is a beginning of the other"


def no_round_refused(run):
    for u, refusal in enumerate(run.round_refusals, 1):
        if refusal != DONE:
            yield f"round {u} is refused with {refusal}"


def counts_and_lanes_bounded(run):
    most = count_limit(run.n)
    for p, station in enumerate(run.group[:run.n]):
        if station.count > most:
            yield f"the count of {p} is {station.count}"
        for s in range(run.n):
            if station.held[s] and station.table[s].count > most:
                yield f"{p} holds a record of {s} with count {station.table[s].count}"
            if station.lanes[s].length > LANE_LIMIT:
                yield f"the lane of {s} at {p} holds {station.lanes[s].length}"


def posts_accounted_for(run):
    """The accepted posts of a desk are its edits that started, then its waiting ones; what a station
    started is its own edits aired, then those in the own lane; and the number is over both desks."""
    for p, station in enumerate(run.group[:run.n]):
        aired = [body for source, body in run.aired[p] if source == p]
        in_lane = [body for body in contents(station.lanes[p]) if edit_kind(body)]
        if [body for _, body in run.starts[p]] != aired + in_lane:
            yield f"the started edits of {p} are not its aired ones and those in its lane"
        for desk in DESKS:
            started = [body for d, body in run.starts[p] if d == desk]
            if run.accepted[p][desk] != started + list(contents(queue_of(station, desk))):
                yield f"the accepted posts of desk {desk} at {p} are not its started and waiting edits"
        waiting = sum(queue_of(station, desk).length for desk in DESKS)
        if sum(map(len, run.accepted[p])) != waiting + len(in_lane) + len(aired):
            yield f"the accepted posts of {p} are not as many as its waiting, started and aired edits"


def aired_in_the_order_started(run):
    """What any station has aired of a sender is a beginning of what the sender started."""
    for p in range(run.n):
        for s in range(run.n):
            aired = [body for source, body in run.aired[p] if source == s]
            if not begins(aired, [body for _, body in run.starts[s]]):
                yield f"what {p} aired of {s} is no beginning of what {s} started"


def desks_take_turns(run):
    """Where both desks waited the one that did not start the last edit went first, desk 0 on a fresh
    station; and no desk that waits has seen two edits of the other start before its oldest."""
    for p in run.out_of_turn:
        yield f"at {p} a desk went first out of its turn"
    for p in range(run.n):
        for desk in DESKS:
            if run.passed[p][desk] > 1:
                yield f"desk {desk} at {p} was passed {run.passed[p][desk]} times"


def ends_follow_relays(run):
    links = Links(run.n, run.log)
    for s in range(run.n):
        expected = links.end_rounds(s)
        if run.ends[s] != expected:
            yield f"the broadcasts of {s} end in rounds {run.ends[s]}; by relays in {expected}"


# The sentences hold for every beginning of a list of calls too. Reported ends never change later and
# the end rule looks at no later round, so that sentence is tried once, on the whole list.
AFTER_EACH_CALL = (no_round_refused, counts_and_lanes_bounded, taken_begins_started,
                   aired_lists_agree, posts_accounted_for, aired_in_the_order_started,
                   desks_take_turns)


def first_fault(n, calls, limit=DEFAULT_LIMIT, edition=0):
    """What the first broken sentence says, or None: calls are post and round lines."""
    run = Run(n, limit, edition)
    for number, call in enumerate(calls, 1):
        if isinstance(call, PostLine):
            run.post(call.station, call.body, call.desk)
            sentences = (posts_accounted_for,)
        else:
            run.round(call.masks)
            sentences = AFTER_EACH_CALL
        for sentence in sentences:
            for fault in sentence(run):
                return f"after call {number}: {fault}"
    for fault in ends_follow_relays(run):
        return f"after the last call: {fault}"
    return None
