"""Relays and the end rule from a link log alone (document 01, "A group and its rounds").

A log is a list of rounds, a round the masks of its stations; rounds are numbered from 1. Nothing
here knows of labels, bodies or stations' state.
"""


def heard_by(log, u, p):
    """The set of stations that p hears in round u, as bits; bits from N up are left to the caller."""
    return log[u - 1][p] & ~(1 << p)


class Links:
    def __init__(self, n, log):
        self.n = n
        self.log = log
        self.known = {}

    def first_arrivals(self, a, t):
        """For each station that some relay from a after round t reaches, the first round it arrives.

        Found round by round: a relay arrives where a is heard, or a station at which one arrived in
        an earlier round.
        """
        first = {}
        sources = 1 << a
        for u in range(t + 1, len(self.log) + 1):
            arrived = [p for p in range(self.n)
                       if p not in first and heard_by(self.log, u, p) & sources]
            for p in arrived:
                first[p] = u
                sources |= 1 << p
            if len(first) == self.n:
                break
        return first

    def arrivals(self, a, t):
        """The first arrivals, found once."""
        if (a, t) not in self.known:
            self.known[a, t] = self.first_arrivals(a, t)
        return self.known[a, t]

    def relay_by(self, a, t, b, u):
        """Some relay from a to b after round t arrives by round u."""
        return self.arrivals(a, t).get(b, u + 1) <= u

    def answered_by(self, s, t, r, u):
        """For some v a relay from s reaches r after t by v, and one from r comes back after v by u."""
        return any(self.relay_by(s, t, r, v) and self.relay_by(r, v, s, u)
                   for v in range(t + 1, u))

    def end_round(self, s, t):
        """The round in which the broadcast that s started in round t ends, or None."""
        others = [r for r in range(self.n) if r != s]
        for u in range(t + 1, len(self.log) + 1):
            if all(self.answered_by(s, t, r, u) for r in others):
                return u
        return None

    def end_rounds(self, s):
        """The rounds in which the broadcasts of s end, one after another, from round 0."""
        ends = []
        t = self.end_round(s, 0)
        while t is not None:
            ends.append(t)
            t = self.end_round(s, t)
        return ends
