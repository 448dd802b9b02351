"""A8: two air logs of one evening (document 02), from listings in the form of document 01."""

import re
from typing import NamedTuple

from .records import PLACES
from .refusals import BAD_LISTING, BAD_NUMBER, BUFFER_SHORT, DONE

EQUAL, FIRST_BEGINS, SECOND_BEGINS, DIFFERENT = range(4)
LETTERS = {b"A", b"D", b"E", b"X"}
LAST_LINE = b"END"
AIRED = b"A"
FIRST_POSITION = 1

# The numbers of a line with their columns. The letter stands behind the round and a space.
ROUND, REST = ("round", 6), (("station", 3), ("source", 3), ("kind", 2), ("event", 9), ("argument", 9))
MAY_BE_NEGATIVE = {"argument"}
NATURAL = re.compile(rb" *(0|[1-9][0-9]*)")
WHOLE = re.compile(rb" *(0|-?[1-9][0-9]*)")


class Line(NamedTuple):
    letter: bytes
    round: int
    station: int
    source: int
    kind: int
    event: int
    argument: int


def read_number(name, text):
    """The number right-justified in its columns, or None."""
    form = WHOLE if name in MAY_BE_NEGATIVE else NATURAL
    return int(text) if form.fullmatch(text) else None


def read_line(line):
    """A line without its line end, or None where it does not have the listing's form."""
    width = ROUND[1]
    letter, at, numbers = line[width + 1:width + 2], width + 2, [read_number(ROUND[0], line[:width])]
    for name, columns in REST:
        numbers.append(read_number(name, line[at:at + columns]))
        at += columns
    if len(line) != at or line[width:width + 1] != b" " or letter not in LETTERS or None in numbers:
        return None
    return Line(letter, *numbers)


def read_listing(listing):
    """The lines of a listing, or None: every line has its line end, the last one is `END`, and nothing follows it."""
    *lines, rest = listing.split(b"\n")
    if rest or not lines or lines.pop() != LAST_LINE:
        return None
    found = [read_line(line) for line in lines]
    return None if None in found else found


def edit_of(line):
    return line.source, line.kind, line.event, line.argument


def air_log(lines, station):
    return [edit_of(line) for line in lines if line.letter == AIRED and line.station == station]


def compared(first, second):
    """Which of the four answers it is, and the position where they differ, else 0."""
    for position, (one, two) in enumerate(zip(first, second), FIRST_POSITION):
        if one != two:
            return DIFFERENT, position
    if len(first) == len(second):
        return EQUAL, 0
    return (FIRST_BEGINS if len(first) < len(second) else SECOND_BEGINS), 0


def compare(first, p, second, q):
    """Refusal, answer and position."""
    if p >= PLACES or q >= PLACES:
        return BAD_NUMBER, 0, 0
    logs = []
    for listing, station in ((first, p), (second, q)):
        lines = read_listing(listing)
        if lines is None:
            return BAD_LISTING, 0, 0
        logs.append(air_log(lines, station))
    return DONE, *compared(*logs)


def call(first, p, second, q, answer):
    """The call from C: its refusal, and what the two listings and the answer's two places then hold."""
    refusal, outcome, position = compare(bytes(first), p, bytes(second), q)
    if refusal == DONE and len(answer) < 2:
        refusal = BUFFER_SHORT
    if refusal != DONE:
        return refusal, (first, second, answer)
    return DONE, (first, second, [outcome, position, *answer[2:]])
