"""Script lines read, listing lines written (document 01, "The relay listing")."""

import re
from typing import NamedTuple

from .bodies import EMPTY, Body
from .records import PLACES
from .refusals import MALFORMED_LINE

FIELD_WIDTH = 9
LARGEST_MASK = 65_535
END_LINE = b"END\n"

# Right-justified: spaces, then a number without leading zeros; a minus, but not before zero.
FIELD_FORM = re.compile(rb" *(0|-?[1-9][0-9]*)")


class SizeLine(NamedTuple):
    n: int


class PostLine(NamedTuple):
    station: int
    body: Body
    desk: int = 0     # scripts post as desk 0 (document 02, A7)


class RoundLine(NamedTuple):
    masks: tuple


def read_fields(text):
    """The numbers in columns of nine, or None where the length or a field's form is another."""
    if len(text) % FIELD_WIDTH != 0:
        return None
    fields = [text[at:at + FIELD_WIDTH] for at in range(0, len(text), FIELD_WIDTH)]
    if not all(FIELD_FORM.fullmatch(field) for field in fields):
        return None
    return tuple(int(field) for field in fields)


def read_line(line, n):
    """The command on a line without its line end, or None where it is malformed.

    n is the group's size, None as long as no `N` line was read.
    """
    letter, numbers = line[:1], read_fields(line[1:])
    if numbers is None:
        return None
    if n is None:
        if letter == b"N" and len(numbers) == 1 and 1 <= numbers[0] <= PLACES:
            return SizeLine(numbers[0])
        return None
    if letter == b"P" and len(numbers) == 4 and min(numbers[:3]) >= 0:
        return PostLine(numbers[0], Body(*numbers[1:]))
    if letter == b"R" and len(numbers) == n and all(0 <= mask <= LARGEST_MASK for mask in numbers):
        return RoundLine(numbers)
    return None


def listing_line(rounds, letter, station, source, body):
    """A channel, which no edit of document 01 has, stands after the edit."""
    channel = b"%4d" % body.channel if body.channel else b""
    return b"%6d %s%3d%3d%2d%9d%9d%s\n" % (rounds, letter, station, source, *body[:3], channel)


def refused_line(rounds, station, n, refusal):
    """A station that is not below N is printed as 0."""
    return listing_line(rounds, b"X", station if station < n else 0, refusal, EMPTY)


def malformed_line(rounds):
    return listing_line(rounds, b"X", 0, MALFORMED_LINE, EMPTY)
