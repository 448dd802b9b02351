"""A group of the proved library and its bulletins, held as bytes: posts, issues, rounds, and the lines of what a round brings.

include/relay.h gives the places in a report and in what is shown.
"""

import struct

from . import library

BODY = struct.Struct("<BBxxIi")       # kind, channel, event, argument
TAKINGS_AT, TAKING = 4, 4 + BODY.size
TURN_AT = 484
ENDED_BODY_AT, STARTED_BODY_AT, ROW_AT = TURN_AT + 4, TURN_AT + 16, TURN_AT + 28
SHOWN_AT, BULLETIN = 4, struct.Struct("<III")   # issuer, tag, event
EDIT_KINDS = 2, 3, 4
ZEROS = 0, 0, 0, 0


class Group:
    def __init__(self, n, limit, edition=0):
        self.n = n
        self.refusal, self.state = library.group_fresh(n, limit, edition)
        _, self.bulletins = library.bulletins_fresh(n)

    def post(self, station, desk, kind, event, argument, channel=0):
        """The refusal, 0 where the edit waits now."""
        return library.group_post(self.state, station, desk, kind, event, argument, channel)

    def issue(self, issuer, tag, event):
        """The refusal, 0 where the issuer shows the bulletin now."""
        return library.bulletins_issue(self.bulletins, issuer, tag, event)

    def round(self, number, masks):
        """The lines of a round, its number being told. From fresh no round is refused."""
        refusal, (reports, shown) = library.bulletins_round(self.state, self.bulletins, masks)
        if refusal:
            raise ValueError(f"a round from fresh is refused with {refusal}")
        return [line for place in range(self.n)
                for line in (*station_lines(number, place, reports), *shown_lines(number, place, shown))]


def body_at(reports, at):
    return BODY.unpack_from(reports, at)


def station_lines(number, place, reports):
    """What one station did in one round: taken, aired, ended, started."""
    at = place * library.REPORT_BYTES
    for i in range(reports[at]):
        taking = at + TAKINGS_AT + TAKING * i
        yield line(number, "D", place, reports[taking], body_at(reports, taking + 4))
    for source in range(library.PLACES if reports[at + TURN_AT] else 0):
        body = body_at(reports, at + ROW_AT + BODY.size * source)
        if body[0] in EDIT_KINDS:
            yield line(number, "A", place, source, body)
    if reports[at + TURN_AT + 1]:
        yield line(number, "E", place, place, body_at(reports, at + ENDED_BODY_AT))
        started = body_at(reports, at + STARTED_BODY_AT)
        if started != ZEROS:
            yield line(number, "D", place, place, started)


def shown_lines(number, place, shown):
    """The bulletins that one station shows in one round."""
    at = place * library.SHOWN_BYTES
    count = int.from_bytes(shown[at:at + SHOWN_AT], "little")
    for i in range(count):
        yield shown_line(number, place, *BULLETIN.unpack_from(shown, at + SHOWN_AT + BULLETIN.size * i))


def shown_line(number, station, issuer, tag, event):
    return "%6d B%3d%3d%11d%9d\n" % (number, station, issuer, tag, event)


def line(number, letter, station, source, body=ZEROS):
    """A line of a listing; an edit's channel, where it has one, stands after it."""
    kind, channel, event, argument = body
    return "%6d %s%3d%3d%2d%9d%9d" % (number, letter, station, source, kind, event, argument) + "%4d" % channel * (channel > 0) + "\n"
