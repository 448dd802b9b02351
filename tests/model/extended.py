"""An extended script in, a listing out (docs/EXTENDED-SCRIPTS.md): a post may name its desk and its channel, and bulletins are issued."""

from . import bulletins, listing
from .bodies import Body
from .bulletins import Bulletin
from .lines import PostLine, read_fields, read_line, refused_line
from .refusals import DONE


def read_extended_line(line, n):
    """As in a script; a post may have a fifth number, its desk, and a sixth, its channel; a bulletin is three numbers."""
    letter, numbers = line[:1], read_fields(line[1:])
    if n is None or numbers is None or (letter, len(numbers)) not in ((b"P", 5), (b"P", 6), (b"B", 3)):
        return read_line(line, n)
    if letter == b"B":
        return Bulletin(*numbers) if min(numbers) >= 0 else None
    station, kind, event, argument, desk, *channel = numbers
    if min(station, kind, event, desk, *channel) < 0:
        return None
    return PostLine(station, Body(kind, event, argument, *channel), desk)


def shown_line(rounds, station, bulletin):
    """A station shows a bulletin."""
    return b"%6d B%3d%3d%11d%9d\n" % (rounds, station, bulletin.issuer, bulletin.tag, bulletin.event)


class Run(listing.Run):
    """The same with the bulletins of the group."""

    def read(self, line):
        return read_extended_line(line, self.n)

    def lines_of(self, command):
        return self.issue(command) if isinstance(command, Bulletin) else super().lines_of(command)

    def begin(self, n):
        super().begin(n)
        self.bulletins = bulletins.fresh_state(n)

    def issue(self, bulletin):
        """The issuer shows it at once."""
        refusal, self.bulletins = bulletins.issue(self.bulletins, bulletin)
        if refusal == DONE:
            yield shown_line(self.rounds, bulletin.issuer, bulletin)
        else:
            yield refused_line(self.rounds, bulletin.issuer, self.n, refusal)

    def round(self, masks):
        """What a station shows comes after its other lines of the round."""
        done, self.bulletins, shown = bulletins.round_of(self.group, self.bulletins, masks)
        self.group = done.group
        for place in range(self.n):
            yield from listing.station_lines(self.rounds, place, done.reports[place])
            yield from (shown_line(self.rounds, place, bulletin) for bulletin in shown[place])


def extended_listing(script, limit=listing.LIMIT, edition=0):
    return b"".join(listing.listing_lines(script, Run(limit, edition)))
