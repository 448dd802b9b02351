"""The listing of a script with two desks, channels and bulletins.

An extended script has the lines of a script (docs/SCRIPTS.md). A P line may
have a fifth number, the desk, 0 or 1, and a sixth, the channel; else they are
0. A B line, issuer, tag and event, issues a bulletin, and what is shown is
printed with the letter B. The other lines are those of a listing, in edition 1
with the channel of an edit after it. docs/EXTENDED-SCRIPTS.md tells more.

exit status: 1 also where a line is malformed, after the listing up to there

example:
    ./relay run examples/bulletins.script
"""

import argparse
import os
import sys

from progress import Reading
from script_faults import COUNTS, ScriptReader

from . import groups, plans
from .faults import Wrong

LIMIT = 32         # of waiting edits of a desk, as the listing names it
LARGEST = 2 ** 32 - 1  # that the library can be asked
MALFORMED, BAD_LIMIT = 11, 13
LAST_LINE = "END\n"


def number(text):
    """A number of 32 bits; whether it is a limit or an edition, the library judges."""
    number = plans.number(text, LARGEST)
    if number is None:
        raise argparse.ArgumentTypeError(f"{text!r} is no number from 0 to {LARGEST:,}")
    return number


def arguments(parser):
    parser.add_argument("script", metavar="SCRIPT", help="the extended script's file; '-' is standard input")
    parser.add_argument("--limit", type=number, default=LIMIT, metavar="L",
                        help="how many edits of a desk may wait at a station, 1 to 32; without it 32, as in a listing")
    parser.add_argument("--edition", type=number, default=0, metavar="E",
                        help="the group's edition, 0 or 1; in edition 1 every edit has a channel; without it 0, as in a listing")


class RunReader(ScriptReader):
    """Does the calls of an extended script line by line, and keeps what they print until it is taken."""

    counts = {**COUNTS, b"P": (4, 5, 6), b"B": (3,)}

    def __init__(self, limit, edition=0):
        super().__init__()
        self.limit, self.edition, self.group, self.printed = limit, edition, None, []

    def take(self, letter, numbers):
        if letter == b"N":
            self.group = groups.Group(numbers[0], self.limit, self.edition)
            if self.group.refusal:
                raise Wrong(f"refused with {self.group.refusal}: {self.fault_of_fresh()}")
        elif letter == b"P":
            self.post(*numbers)
        elif letter == b"B":
            self.issue(*numbers)
        else:
            self.printed += self.group.round(self.rounds, numbers)

    def fault_of_fresh(self):
        """Why there is no such group; its N was read already."""
        if self.group.refusal == BAD_LIMIT:
            return f"a limit is 1 to 32, not {self.limit}"
        return f"an edition is 0 or 1, not {self.edition}"

    def post(self, station, kind, event, argument, desk=0, channel=0):
        refusal = self.group.post(station, desk, kind, event, argument, channel)
        if refusal:
            self.refuse(station, refusal)

    def issue(self, issuer, tag, event):
        """The issuer shows the bulletin at once."""
        refusal = self.group.issue(issuer, tag, event)
        if refusal:
            self.refuse(issuer, refusal)
        else:
            self.printed.append(groups.shown_line(self.rounds, issuer, issuer, tag, event))

    def refuse(self, station, refusal):
        """A station that there is not is printed as 0."""
        self.printed.append(groups.line(self.rounds, "X", station if station < self.n else 0, refusal))

    def taken(self):
        printed, self.printed = "".join(self.printed), []
        return printed


def ending(reader):
    """The last lines: one for the line that stopped the reading, if there is one, and the end."""
    return groups.line(reader.rounds, "X", 0, MALFORMED) * bool(reader.fault) + LAST_LINE


def size_of(name):
    """How many bytes a file has; 0 where that is not known."""
    try:
        return os.stat(0 if name == "-" else name).st_size
    except OSError:
        return 0


def run(given):
    reader, progress = RunReader(given.limit, given.edition), Reading("run", size_of(given.script))
    for part in plans.parts(given.script):
        reader.read(part)
        sys.stdout.write(reader.taken())
        progress.read(part, reader.rounds)
        if reader.fault:
            break
    else:
        reader.close()
    progress.clear()
    sys.stdout.write(ending(reader))
    if reader.fault:
        sys.stdout.flush()
        raise Wrong(f"{plans.shown(given.script)}, line {reader.lines + 1}: {reader.fault}")
