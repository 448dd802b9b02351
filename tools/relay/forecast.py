"""The ends of every station's broadcasts, read off a link plan.

A plan is a script's N and R lines; P lines are passed over. Shown are, for
each station, how many of its broadcasts end and the round of the last end;
where none ends, '-' in the table and 0 in --csv. The picture has link windows,
rounds on end in which a station hears another, as bars, and ends as marks.
Below the table: how long news takes, and by when an edit is aired everywhere.

example:
    ./relay forecast examples/five-stations.plan --from 20 --behind 1
"""

import csv
import sys

from . import forecast_picture, library, on_air, plans
from .faults import Missing


def arguments(parser):
    parser.add_argument("plan", metavar="PLAN", help="the plan's file; '-' is standard input")
    parser.add_argument("--csv", action="store_true", help="comma-separated values, for a spreadsheet")
    parser.add_argument("--picture", metavar="FILE.svg", help="also draw link windows and ends into this file")
    on_air.arguments(parser)


def answer(plan):
    """How many broadcasts of each station end, and the round of each one's last."""
    refusal, (ends, last) = library.forecast(plan.n, plan.log)
    if refusal:
        raise plans.refused(refusal, plan)
    return ends[:plan.n], last[:plan.n]


def all_ends(plan):
    """The rounds of all ends of each station: those in which it has its second broadcast, its third and so on."""
    ends, _ = answer(plan)
    asked = [(station, station, k + 2) for station in range(plan.n) for k in range(ends[station])]
    found = [[] for _ in range(plan.n)]
    for at in range(0, len(asked), library.MOST_QUESTIONS):
        page = asked[at:at + library.MOST_QUESTIONS]
        for (station, _, _), number in zip(page, library.questions(plan.n, plan.log, page)[1]):
            found[station].append(number)
    return found


def run(given):
    plan = plans.read(given.plan)
    ends, last = answer(plan)
    bounds = on_air.lines(plan, given.first, given.behind)
    if given.picture is not None:
        draw(plan, given.picture)
    if given.csv:
        write_values(sys.stdout, ends, last)
        return
    print(f"{plans.counted(plan.n, 'station')}, {plans.counted(plan.rounds, 'round')}")
    print("station  ends  last in round")
    for station in range(plan.n):
        print(f"{station:7d}{ends[station]:6d}{last[station] or '-':>15}")
    print(*bounds, sep="\n")


def write_values(file, ends, last):
    """The table as comma-separated values."""
    table = csv.writer(file, lineterminator="\n")
    table.writerow(("station", "ends", "last_round"))
    table.writerows(zip(range(len(ends)), ends, last))


def draw(plan, name):
    picture = forecast_picture.draw(plan, all_ends(plan))
    try:
        with open(name, "w", encoding="utf-8") as file:
            file.write(picture)
    except OSError as wrong:
        raise Missing(f"cannot write {name or repr(name)}: {wrong.strerror}") from None
