"""Runs test modules (tests/test_*.py) for tests/check-model and tests/check-commands.

Each module has a process of its own, and as many run at a time as there are processors, or as CHECK_PROCESSES says. Words after the
command name modules to run; these run one after the other in the command's own process.
"""

import concurrent.futures
import os
import pathlib
import re
import subprocess
import sys
import tempfile
import time
import unittest

HERE = pathlib.Path(__file__).resolve().parent

# What runs ./relay, ./listing or the library as they are built, or goes by the clock. All other modules need nothing that is built.
COMMANDS = (
    "test_ask_command", "test_command_errors", "test_compare_command", "test_contest_command", "test_delta", "test_forecast_command",
    "test_header", "test_hops", "test_listing_command", "test_load_command", "test_merge_command", "test_on_air",
    "test_planning_document", "test_progress", "test_relay_command", "test_run_command", "test_screen", "test_screen_calls",
    "test_scripts_document",
)
# These take longest, and begin first.
LONGEST = (
    "test_run_command", "test_command_errors", "test_relay_command", "test_compare_command", "test_progress", "test_on_air",
    "test_planning_document", "test_screen", "test_replies", "test_of_tests", "test_demand3", "test_picture", "test_delivery",
)
COUNT = re.compile(r"(-?\d+) passed, (\d+) failed\n\Z")
QUIET = re.compile(r"[.s]*\n-+\nRan \d+ tests? in .*\n\nOK(?: \(.*\))?\n.*\n\Z")     # what unittest prints where all is well


def of_the_model():
    """All modules but those of the commands."""
    return sorted({file.stem for file in HERE.glob("test_*.py")} - set(COMMANDS))


def run_here(names):
    """Runs modules in this process, and prints their count; the exit status."""
    result = unittest.TextTestRunner(verbosity=1).run(unittest.defaultTestLoader.loadTestsFromNames(names))
    bad = len(result.failures) + len(result.errors) + len(result.unexpectedSuccesses)
    sys.stderr.flush()
    print(f"{result.testsRun - bad} passed, {bad} failed")
    return int(bad != 0)


def run_apart(name, environment):
    """Runs a module in a process of its own: what it printed, its exit status and the seconds it took."""
    began = time.monotonic()
    done = subprocess.run([sys.executable, "-B", sys.argv[0], name], env=environment, stdin=subprocess.DEVNULL, stdout=subprocess.PIPE,
                          stderr=subprocess.STDOUT, text=True, errors="replace", check=False)
    return done.stdout, done.returncode, time.monotonic() - began


def with_this_python(folder):
    """The environment, in which python3 is the Python that runs here. That name may be of a script that looks for Python anew each
    time, and the commands are started some hundred times."""
    pathlib.Path(folder, "python3").symlink_to(sys.executable)
    return {**os.environ, "PATH": f"{folder}{os.pathsep}{os.environ['PATH']}"}


def counted(name, printed, status, took):
    """Shows one module, whole where something failed or was said, and gives how many passed and failed. A module that ends without
    its count, or with another status than its count has, has failed."""
    found = COUNT.search(printed)
    passed, failed = map(int, found.groups()) if found else (0, 1)
    words = printed[found.start():].strip() if found else "ended without its count"
    if status != (failed != 0):
        words, failed = f"{words}, with status {status}", max(failed, 1)
    if failed or not QUIET.match(printed):
        print(printed.rstrip("\n"))
    skipped = re.findall(r"(?m)^OK (\(.*\))$", printed)
    print(f"{name}: {' '.join([words, *skipped])}, {took:.1f} s", flush=True)
    return passed, failed


def run(names):
    """Runs modules, each apart, and prints the count of all; the exit status."""
    processes = int(os.environ.get("CHECK_PROCESSES") or len(os.sched_getaffinity(0)))
    order = sorted(names, key=lambda name: LONGEST.index(name) if name in LONGEST else len(LONGEST))
    passed = failed = 0
    with tempfile.TemporaryDirectory() as folder, concurrent.futures.ThreadPoolExecutor(processes) as pool:
        environment = with_this_python(folder)
        running = {pool.submit(run_apart, name, environment): name for name in order}
        for done in concurrent.futures.as_completed(running):
            more = counted(running[done], *done.result())
            passed, failed = passed + more[0], failed + more[1]
    print(f"{passed} passed, {failed} failed")
    return int(failed != 0)


def main(names, ready=lambda: None):
    """Runs the modules that the command's words name, or all of its own; what it needs is made ready before."""
    named = sys.argv[1:]
    if others := set(named) - set(names):
        print(f"{pathlib.Path(sys.argv[0]).name} has no {', '.join(sorted(others))}", file=sys.stderr)
        return 2
    if named:
        return run_here(named)
    ready()
    return run(names)
