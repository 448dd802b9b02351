"""The plan of two carriers together.

A hearing is there in a round if either plan has it; the shorter plan is silent
past its end. The merged plan goes to standard output; P lines are left out.
Every station's k-th end comes no later than under either plan alone.

example:
    ./relay merge examples/first-carrier.script examples/second-carrier.plan
"""

import sys

from . import library, plans
from .faults import Misused, Wrong


def arguments(parser):
    parser.add_argument("first", metavar="PLAN", help="the first plan's file; '-' is standard input")
    parser.add_argument("second", metavar="PLAN", help="the second plan's file")


def merged(first, second):
    """The masks of both plans together."""
    if first.n != second.n:
        raise Wrong(f"{plans.shown(second.name)} is for {plans.counted(second.n, 'station')}, "
                    f"but {plans.shown(first.name)} for {first.n}: two plans are merged for one group")
    refusal, log = library.merge(first.n, first.log, second.log)
    if refusal:
        raise plans.refused(refusal, first, second)
    return log


def run(given):
    if given.first == given.second == "-":
        raise Misused("standard input can be one of the two plans, not both")
    first, second = plans.read(given.first), plans.read(given.second)
    sys.stdout.write(plans.text(first.n, merged(first, second)))
