"""By when an edit is aired at every station, read off a link plan: the last lines of `./relay forecast`."""

import argparse

from . import delta, plans
from .faults import Wrong

MOST_WAITING = 31   # of a desk, before an edit that is accepted


def number(most):
    """Reads a number from 0 to the most."""
    def read(text):
        found = plans.number(text, most)
        if found is None:
            raise argparse.ArgumentTypeError(f"{text!r} is no number from 0 to {most:,}")
        return found
    return read


def arguments(parser):
    parser.add_argument("--from", dest="first", metavar="ROUND", type=number(plans.MOST_ROUNDS), default=0,
                        help="the rounds done when an edit is posted; else 0")
    parser.add_argument("--behind", metavar="COUNT", type=number(MOST_WAITING), default=0,
                        help="the edits of its desk that wait then; else 0")


def lines(plan, first, behind):
    if first > plan.rounds:
        raise Wrong(f"{plans.shown(plan.name)}: --from {first}: the plan has {plans.counted(plan.rounds, 'round')}")
    found = delta.least(plan.n, plan.log, first)
    if found is None:
        return [f"news: from round {first} on it does not reach every station; no bound for an edit"]
    both, alone = (delta.on_air_by(first, behind, found, both_desks) for both_desks in (True, False))
    return [f"news: from round {first} on it reaches every station within {plans.counted(found, 'round')}",
            f"an edit posted at any station then, behind {behind} of its desk: aired everywhere by round {both:,}{past(plan, both)}",
            f"the same where the other desk has nothing waiting and posts nothing: by round {alone:,}{past(plan, alone)}"]


def past(plan, bound):
    """A round past the plan is a bound only if news goes on as fast."""
    return ", if the links go on so" if bound > plan.rounds else ""
