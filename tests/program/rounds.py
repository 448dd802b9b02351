"""Long scripts: one that goes past round 999,999, and lines that never end. The program gets them in little memory."""

import subprocess
import threading

from model import group, lines, listing
from model.scripts import script_line

from .command import Finished, ending
from .compare import difference

LAST = 999_999
MODELLED = 60                            # rounds that the model itself runs
KIBIBYTES = 32_768                       # what the program may have of memory, its code among it
SECONDS = 120                            # for one script
LONG_LINE = 96_000_000                   # bytes

POSTS = [(0, 3, event, 0) for event in range(1, 35)]
BEGINNING = script_line(b"N", (1,)) + b"".join(script_line(b"P", post) for post in POSTS)
REFUSED = script_line(b"P", (0, 2, 1, 2_700_000))
ROUND = script_line(b"R", (1,))          # one station hears nobody, whatever its mask says
SILENT = script_line(b"R", (65_534,))


def script_parts():
    """Posts, 1,000,001 rounds of one station, and refused posts about the last round that counts."""
    yield BEGINNING
    for _ in range(999):
        yield ROUND * 500 + SILENT * 500
    yield ROUND * 998 + REFUSED + ROUND + REFUSED * 2 + SILENT + ROUND + REFUSED


def expected_parts():
    """The model's listing of the first rounds; then each round lists what the one before it did, with its own number."""
    begun = listing.listing(BEGINNING + ROUND * MODELLED).removesuffix(lines.END_LINE)
    yield begun
    again = [line[6:] for line in begun.splitlines(keepends=True) if line[:6] == b"%6d" % MODELLED]
    for first in range(MODELLED + 1, LAST, 1_000):
        yield b"".join(b"%6d" % number + line for number in range(first, min(first + 1_000, LAST)) for line in again)
    yield lines.refused_line(LAST - 1, 0, 1, 4)
    yield b"".join(b"%6d" % LAST + line for line in again)
    yield lines.refused_line(LAST, 0, 1, 4) * 2 + lines.malformed_line(LAST) + lines.END_LINE


def repeats():
    """Whether the model bears that out: its last state is the one of three rounds before, and those rounds report the same."""
    states, reports = [group.fresh(1).group], []
    for place, *body in POSTS:
        states[0] = group.post(states[0], place, lines.Body(*body)).group
    for _ in range(MODELLED):
        done = group.round_of(states[-1], (1,))
        states.append(done.group)
        reports.append(done.reports[0])
    return states[-1] == states[-4] and len(set(reports[-4:])) == 1


def long_line_parts():
    yield BEGINNING
    for _ in range(LONG_LINE // 1_000_000):
        yield b"R" * 1_000_000


def compare(comparison):
    comparison.holds("the model's group of one goes on as it was", repeats())
    streamed(comparison, "1,000,001 rounds of one station", script_parts(), expected_parts())
    expected = listing.listing(BEGINNING + b"R")
    streamed(comparison, f"a line of {LONG_LINE:,} bytes", long_line_parts(), [expected])


def streamed(comparison, name, script, expected):
    """One test: a script that is made while the program reads it, and its listing compared while the program writes it."""
    limited = ["sh", "-c", f'ulimit -v {KIBIBYTES} && exec "$0"', comparison.program]
    fault = ""
    with subprocess.Popen(limited, stdin=subprocess.PIPE, stdout=subprocess.PIPE) as running:
        late = threading.Timer(SECONDS, running.kill)
        late.start()
        writing = threading.Thread(target=write, args=(running.stdin, script))
        writing.start()
        for part in expected:
            got = running.stdout.read(len(part))
            if got != part:
                fault = difference(part, Finished(got, ""))
                running.kill()
                break
        else:
            if running.stdout.read(1):
                fault = "the listing goes on after its end"
                running.kill()
        writing.join()
        late.cancel()
    fault = fault or ending(running.returncode)
    if fault:
        comparison.say(f"{name}, in {KIBIBYTES} KiB of memory: {fault}")
    comparison.count(not fault)


def write(pipe, parts):
    try:
        for part in parts:
            pipe.write(part)
        pipe.close()
    except BrokenPipeError:
        pass  # the program has stopped reading
