"""A station that is put back to an old state, with a report cut to fit, so that its host cannot tell. That is no run of
the theorem, and the listing of the reports is not what the stations told: docs/HOST.md says what the operator does."""

from . import record
from .hosts import Fault
from .plan import Plan, Sizes
from .rounds import Rounds

ROUNDS, SAVED, KILLED, BACK = 40, 8, 20, 22
STATION = 1


class PutBack(Rounds):
    """The state of one round is put in place of that of a later one."""

    def round(self, number):
        super().round(number)
        host = self.hosts[STATION]
        if number == SAVED:
            self.kept = [(file, file.read_bytes()) for file in (host.file("state"), host.file("report"))]
        elif number == KILLED:
            host.kill()
            host.gone()
            for file, data in self.kept:
                file.write_bytes(data)
            self.back[STATION] = BACK


def differs(tests, seed):
    """What differs between the reports and their listing; None where nothing does."""
    with tests.folder() as folder:
        run = PutBack(tests.program, Plan(f"old {seed}", Sizes(4, ROUNDS, 20)), folder, tests.shim)
        run.go()
        found = record.reports(run.hosts, ROUNDS)
        try:
            record.compare(found)
        except Fault as fault:
            return str(fault)
    return None


def try_all(tests):
    for seed in (3, 9):
        said = differs(tests, seed)
        tests.count(said is not None)
        if said is None:
            print(f"try-host: a station with an old state, seed {seed}, is not noticed", flush=True)
    print("try-host: stations that are put back to an old state", flush=True)
