"""The calls of the page: what each is given as JSON, and what it answers.

Every round of an end and of an answer comes from the library. Found here are the hops of a relay, which the library's
answer judges, and Delta.
"""

import base64
import binascii
import functools
import io
import sys
from array import array
from typing import NamedTuple

from .. import ask, delta, ends, forecast, forecast_picture, hops, library, merge, plans
from ..faults import Missing, Wrong
from ..hearings import hearings

LARGEST = 2 ** 32 - 1       # that the library can be asked
LARGEST_TEXT = 4 << 20      # bytes of a plan; one of 2,048 rounds has 0.3 MB, and its posts come on top
LONGEST_NAME = 200
KEPT = 32                   # answers of the library on a plan, of each kind
KEPT_PARTS = 2_048          # on some rounds of a plan: three plans of 16 stations and 2,048 rounds have 768 parts
BOTH = "both"


# Plans, as text and as JSON.

def limited(name, parts):
    """The parts of a text, as long as it is not too large."""
    size = 0
    for part in parts:
        size += len(part)
        if size > LARGEST_TEXT:
            raise Wrong(f"{plans.shown(name)}: the plan has more than {LARGEST_TEXT:,} bytes, which the screen takes "
                        "at the most")
        yield part


def read(name, parts):
    """The plan of a text, where the library takes it."""
    plan = plans.read_parts(name, limited(name, parts))
    forecast_of(plan)
    return plan


class Named:
    """The plans that the command names. Files are read anew each time, standard input once."""

    def __init__(self, names):
        self.names = names
        self.given = read("-", plans.parts("-")) if "-" in names else None

    def read(self, name):
        return self.given if name == "-" else read(name, plans.parts(name))

    def judge(self):
        """Raises what is wrong with the plans."""
        read_now = [self.read(name) for name in self.names]
        if len(read_now) == 2:
            merge.merged(*read_now)

    def shown(self):
        """Each plan for the page, or what is wrong with it."""
        found = []
        for name in self.names:
            try:
                found.append(plan_for_page(self.read(name)))
            except (Wrong, Missing) as wrong:
                found.append({"name": plans.shown(name), "fault": str(wrong)})
        return {"plans": found}


def plan_for_page(plan):
    return {"name": plans.shown(plan.name), "n": plan.n, "log": text_of(plan.log)}


def text_of(log):
    """Masks for JSON: 16 bits each, the low byte first, in base 64."""
    return base64.b64encode(little(log).tobytes()).decode()


def log_of(text):
    try:
        data = base64.b64decode(text, validate=True)
    except (binascii.Error, ValueError, TypeError):
        raise Wrong("'log' is no text in base 64") from None
    if len(data) % 2:
        raise Wrong("'log' has half a mask at its end")
    return little(array("H", data))


def little(log):
    """The masks with the low byte first, or back from there."""
    if sys.byteorder == "big":
        log = log[:]
        log.byteswap()
    return log


# What JSON gives.

def fits(number, most=LARGEST):
    return 0 <= number <= most


def number_of(value, name, most=LARGEST):
    if type(value) is not int or not fits(value, most):
        raise Wrong(f"'{name}' is a number from 0 to {most:,}")
    return value


def list_of(given, name):
    value = given.get(name)
    if not isinstance(value, list):
        raise Wrong(f"'{name}' is a list")
    return value


def plan_of(given):
    if not isinstance(given, dict) or not isinstance(given.get("name"), str):
        raise Wrong("a plan has its 'name', 'n' and 'log'")
    return plans.Plan(given["name"][:LONGEST_NAME], number_of(given.get("n"), "n"), log_of(given.get("log")))


def carriers_of(given):
    """The plans of one carrier or of two."""
    found = list_of(given, "plans")
    if not 1 <= len(found) <= 2:
        raise Wrong("there are one or two 'plans'")
    return [plan_of(one) for one in found]


def chosen(given, carriers):
    """The plan to show: that of a carrier by its number, or both together."""
    show = given.get("show")
    if show == BOTH and len(carriers) == 2:
        return plans.Plan("both plans", carriers[0].n, merge.merged(*carriers))
    if type(show) is int and 0 <= show < len(carriers):
        return carriers[show]
    raise Wrong("'show' is the number of a plan, from 0, or 'both' where there are two")


def plan_shown(given):
    """The plan to show, where the library takes all that are given."""
    carriers = carriers_of(given)
    for plan in carriers:
        forecast_of(plan)
    return chosen(given, carriers)


def questions_of(given):
    """The questions; their form is judged here and their numbers by the library."""
    asked = []
    for at, numbers in enumerate(list_of(given, "questions"), 1):
        if not isinstance(numbers, list) or list(map(type, numbers)) != [int] * 3 or not all(map(fits, numbers)):
            raise Wrong(f"question {at}: {ask.FORM}")
        asked.append(ask.Question(f"question {at}", tuple(numbers)))
    return asked


# The calls. Of two carriers an edit changes one, and so the last answers of the library are kept.

@functools.lru_cache(KEPT)
def kept_forecast(n, masks):
    return library.forecast(n, array("H", masks))


@functools.lru_cache(KEPT)
def kept_part(n, masks, first, last, stations):
    return ends.in_part(n, array("H", masks), first, last, stations, forecast_numbers, kept_ends)


kept_ends = functools.lru_cache(KEPT_PARTS)(ends.first_ends)


def forecast_numbers(n, log):
    """What the library's forecast gives."""
    return kept_forecast(n, log.tobytes())


def forecast_of(plan):
    """The library's forecast, or its refusal in words."""
    refusal, (counts, last) = forecast_numbers(plan.n, plan.log)
    if refusal == 1:
        raise Wrong(f"{plans.shown(plan.name)}: refused with 1: a plan has 1 to 16 stations, not {plan.n}")
    if refusal:
        raise plans.refused(refusal, plan)
    return {"ends": counts[:plan.n], "last": last[:plan.n]}


class View(NamedTuple):
    """The part of a plan that is looked at."""
    first: int      # round
    last: int
    stations: frozenset


def view_of(given, n):
    """The rounds of the view, and the stations: all where none are named."""
    rounds = [number_of(one, "view") for one in list_of(given, "view")]
    if len(rounds) != 2:
        raise Wrong("'view' is a first and a last round")
    named = list_of(given, "stations") if "stations" in given else range(n)
    return View(*rounds, frozenset(number_of(one, "stations") for one in named) & frozenset(range(n)))


def part_of(plan, view):
    """The ends in view, by station; None for a station that is not."""
    first, last = max(1, view.first), min(plan.rounds, view.last)
    if first > last:
        before, found = [0] * plan.n, {station: [] for station in view.stations}
    else:
        before, found = kept_part(plan.n, plan.log.tobytes(), first, last, view.stations)
    return {"first": first, "last": last, "before": before, "ends": list(map(found.get, range(plan.n)))}


def answers_of(plan, asked):
    """The answer to each question, the round in which the broadcast starts, and the relay that brings it."""
    numbers = [one.numbers for one in asked]
    refusal, rounds = library.questions(plan.n, plan.log, numbers)
    if refusal:
        raise Wrong(ask.refused(plan, asked))
    _, starts = library.questions(plan.n, plan.log, [(s, s, k) for s, _, k in numbers])
    found = []
    for (sender, receiver, _), start, number in zip(numbers, starts, rounds):
        relay = None if start is None else relay_after(plan, sender, receiver, start, number)
        found.append({"round": number, "start": start, "hops": relay or [], "error": hops.fault(number, start, relay)})
    return found


def relay_after(plan, sender, receiver, start, number):
    """The hops of the first relay after a start, looked for up to the round in which it should arrive, and then to the
    plan's end."""
    part, rest = (plan.log[plan.n * start:plan.n * end] for end in (number or plan.rounds, plan.rounds))
    relay = kept_relay(plan.n, part.tobytes(), sender, receiver)
    if relay is None:
        relay = kept_relay(plan.n, rest.tobytes(), sender, receiver)
    return relay and [hop._replace(round=start + hop.round) for hop in relay]


@functools.lru_cache(KEPT_PARTS)
def kept_relay(n, masks, sender, receiver):
    return hops.relay(hearings(n, array("H", masks)), sender, receiver, 0)


def look(given):
    """What the page shows of one plan, or of two: forecasts, the ends in view, and answers."""
    began = library.clock.seconds
    carriers = carriers_of(given)
    alone = [forecast_of(plan) for plan in carriers]
    plan = chosen(given, carriers)
    view = view_of(given, plan.n)
    both = given.get("show") == BOTH
    found = {
        "rounds": plan.rounds,
        "log": text_of(plan.log) if both else None,
        "forecast": forecast_of(plan) if both else alone[given["show"]],
        "alone": alone,
        "part": part_of(plan, view),
        "part_alone": [part_of(one, view) for one in carriers] if both and given.get("alone") is not False else [],
        "answers": [], "question_fault": None,
    }
    try:
        found["answers"] = answers_of(plan, questions_of(given))
    except Wrong as wrong:
        found["question_fault"] = str(wrong)
    found["library_ms"] = 1_000 * (library.clock.seconds - began)
    return found


def delta_of(given):
    """Delta of the plan from a round on, and by when an edit is on air that is posted then."""
    plan = plan_shown(given)
    posted = number_of(given.get("from"), "from", plan.rounds)
    found = delta.least(plan.n, plan.log, posted)
    answer = {"from": posted, "delta": found}
    if found is not None:
        waiting = number_of(given.get("waiting"), "waiting", 31)
        bounds = [delta.on_air_by(posted, waiting, found, both_desks) for both_desks in (False, True)]
        answer["on_air_by"] = [number if number <= plan.rounds else None for number in bounds]
    return answer


def delta_check(given):
    """What the library's answers say against Delta of the plan from a round on, or None."""
    plan = plan_shown(given)
    posted = number_of(given.get("from"), "from", plan.rounds)
    found = delta.least(plan.n, plan.log, posted)
    return {"delta": found, "objection": delta.objection(plan.n, plan.log, posted, found)}


# Exports: the texts that the other subcommands print.

def script(given):
    plan = plan_shown(given)
    return plans.text(plan.n, plan.log)


def picture(given):
    """The picture, with the relay that answers the first question, if there is one."""
    plan, asked = plan_shown(given), questions_of(given)[:1]
    relays = [(one.numbers[0], answer["start"], answer["hops"])
              for one, answer in zip(asked, answers_of(plan, asked)) if answer["start"] is not None]
    whole = View(1, plan.rounds, frozenset(range(plan.n)))
    return forecast_picture.draw(plan, part_of(plan, whole)["ends"], *relays)


def forecast_values(given):
    table, found = io.StringIO(), forecast_of(plan_shown(given))
    forecast.write_values(table, found["ends"], found["last"])
    return table.getvalue()


def answer_values(given):
    table, plan, asked = io.StringIO(), plan_shown(given), questions_of(given)
    ask.write_values(table, ask.rows_of(asked, ask.answers(plan, asked)))
    return table.getvalue()
