"""The listing of a script of posts and rounds.

docs/SCRIPTS.md tells of scripts and listings. Without a name the example
two-stations.script is listed. A line that stops the reading is explained on
standard error; the listing shows it too, so the exit status is 0 all the same.

example:
    ./relay listing examples/five-stations.script
"""

import os
import sys

from . import places

COMMAND = places.ROOT / "listing"   # of the repository: it builds the program where it is missing
EXAMPLE = places.EXAMPLES / "two-stations.script"


def arguments(parser):
    parser.add_argument("script", nargs="?", metavar="SCRIPT", help="the script's file; '-' is standard input")


def run(given):
    named = [] if given.script is None else [given.script]
    if not places.INSTALLED:
        os.execv(COMMAND, [COMMAND, *named])
    program = os.environ.get("RELAY_LISTING_PROGRAM") or places.PROGRAM
    os.execv(sys.executable, [sys.executable, "-B", places.MODULES / "run_listing.py", program, *(named or [EXAMPLE])])
