"""By which round has station r received the k-th broadcast of s?

A question is s, r and k, up to 64 of them for one plan. Station s itself has a
broadcast in the round it starts it, the first in round 0; 'never' means that
the plan does not bring it. A file of questions has one a line; empty lines and
lines that begin with # are passed over.

example:
    ./relay ask examples/five-stations.plan '0 4 1' '0 4 7' '4 4 6' '3 1 99'
"""

import csv
import sys
from typing import NamedTuple

from . import library, plans
from .faults import Misused, Wrong

LARGEST = 2 ** 32 - 1  # that the library can be asked
FORM = f"a question is three numbers up to {LARGEST:,}, as '0 4 2': station s, station r and k"


class Question(NamedTuple):
    where: str
    numbers: tuple


def arguments(parser):
    parser.add_argument("plan", metavar="PLAN", help="the plan's file; '-' is standard input")
    parser.add_argument("question", nargs="*", metavar="'S R K'", help="a question")
    parser.add_argument("--questions", metavar="FILE", help="a file of questions, after those named")
    parser.add_argument("--csv", action="store_true", help="comma-separated values, for a spreadsheet")


def parse(text, where):
    numbers = tuple(plans.number(word, LARGEST) for word in text.split())
    if len(numbers) != 3 or None in numbers:
        raise Wrong(f"{where}: {plans.quoted(text)}: {FORM}")
    return Question(where, numbers)


def read(given):
    """The questions of the arguments, then those of the file."""
    asked = [parse(text, f"question {number}") for number, text in enumerate(given.question, 1)]
    if given.questions is not None:
        lines = b"".join(plans.parts(given.questions)).decode("latin-1").split("\n")
        asked += [parse(line, f"{plans.shown(given.questions)}, line {number}") for number, line in enumerate(lines, 1)
                  if line.strip() and not line.startswith("#")]
        if not asked:
            raise Wrong(f"{plans.shown(given.questions)}: there is no question in it; {FORM}")
    if not asked:
        raise Misused("there is no question; give one as '0 4 2', or a file of them with --questions")
    return asked


def answers(plan, asked):
    refusal, rounds = library.questions(plan.n, plan.log, [one.numbers for one in asked])
    if refusal == 18:
        raise Wrong(refused(plan, asked))
    if refusal:
        raise plans.refused(refusal, plan)
    return rounds


def refused(plan, asked):
    """What refusal 18 means: the first question that is refused alone, whatever the plan's rounds, or too many."""
    for one in asked[:library.MOST_QUESTIONS]:
        if library.questions(plan.n, plan.log[:0], [one.numbers])[0]:
            return (f"{one.where}: refused with 18: a station is 0 to {plan.n - 1} in this plan and k is at least 1, "
                    f"not {' '.join(map(str, one.numbers))}")
    return f"refused with 18: {len(asked)} questions, and at most {library.MOST_QUESTIONS} are answered at once"


def rows_of(asked, rounds):
    """The rows of the table: the numbers of each question, and its answer."""
    return [(*one.numbers, "never" if number is None else number) for one, number in zip(asked, rounds)]


def write_values(file, rows):
    """The table as comma-separated values."""
    table = csv.writer(file, lineterminator="\n")
    table.writerow(("sender", "receiver", "k", "round"))
    table.writerows(rows)


def run(given):
    if given.plan == given.questions == "-":
        raise Misused("standard input can be the plan or the questions, not both")
    plan, asked = plans.read(given.plan), read(given)
    rows = rows_of(asked, answers(plan, asked))
    if given.csv:
        write_values(sys.stdout, rows)
    else:
        print("sender  receiver           k  received in round")
        for sender, receiver, k, number in rows:
            print(f"{sender:6d}{receiver:10d}{k:12d}{number:>19}")
