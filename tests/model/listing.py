"""A script in, a listing out (document 01, "The relay listing")."""

from . import group as groups
from .bodies import EMPTY_KIND, edit_kind
from .lines import END_LINE, PostLine, RoundLine, SizeLine, listing_line, malformed_line, read_line, refused_line
from .refusals import DONE

LAST_ROUND = 999_999
LIMIT = 32            # that the program names (document 02, A2)


def split_lines(script):
    """The lines without their line ends; None, which is malformed, for a last line that has no line
    end and for the line that an empty script lacks."""
    *lines, rest = script.split(b"\n")
    if rest or not lines:
        lines.append(None)
    return lines


def station_lines(rounds, place, report):
    """What one station did in one round, in the order of its hearing and its turn."""
    for source, body in groups.used_takings(report):
        yield listing_line(rounds, b"D", place, source, body)
    for source, body in enumerate(report.row):
        if edit_kind(body):
            yield listing_line(rounds, b"A", place, source, body)
    if report.ended:
        yield listing_line(rounds, b"E", place, place, report.ended_body)
    if report.started_body.kind != EMPTY_KIND:
        yield listing_line(rounds, b"D", place, place, report.started_body)


class Run:
    """A group and the number of its rounds so far. Each command of a script gives the lines that it prints."""

    def __init__(self, limit, edition=0):
        self.limit, self.edition = limit, edition
        self.n, self.group, self.rounds = None, None, 0

    def read(self, line):
        return read_line(line, self.n)

    def lines_of(self, command):
        if isinstance(command, SizeLine):
            self.begin(command.n)
        elif isinstance(command, PostLine):
            yield from self.post(command)
        else:
            self.rounds += 1
            yield from self.round(command.masks)

    def begin(self, n):
        self.n, self.group = n, groups.fresh(n, self.limit, self.edition).group

    def post(self, command):
        refusal, self.group = groups.post(self.group, command.station, command.body, command.desk)
        if refusal != DONE:
            yield refused_line(self.rounds, command.station, self.n, refusal)

    def round(self, masks):
        done = groups.round_of(self.group, masks)
        self.group = done.group
        for place in range(self.n):
            yield from station_lines(self.rounds, place, done.reports[place])


def listing_lines(script, run):
    """A script's lines are read up to the first one that is malformed or is a round too many."""
    for line in split_lines(script):
        command = None if line is None else run.read(line)
        if command is None or isinstance(command, RoundLine) and run.rounds == LAST_ROUND:
            yield malformed_line(run.rounds)
            break
        yield from run.lines_of(command)
    yield END_LINE


def listing(script):
    """The listing of a script; both are bytes, and the script may be any bytes."""
    return b"".join(listing_lines(script, Run(LIMIT)))
