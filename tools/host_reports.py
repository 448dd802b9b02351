"""The reports of all stations of a group (docs/HOST.md) as one script and one listing."""

import os
import pathlib
import shlex
import subprocess
from itertools import zip_longest

ROOT = pathlib.Path(__file__).resolve().parent.parent


class Wrong(Exception):
    """Reports that are not those of one run; the text says why."""


class Report:
    """What one station told: for each number of rounds done its posts and their refusals, for each round its mask and
    its lines."""

    def __init__(self, text, name):
        self.posts, self.refusals, self.masks, self.lines = [[]], [[]], [], []
        if text and not text.endswith("\n"):
            raise Wrong(f"{name}: the report ends within a line")
        for line in text.splitlines():
            self.add(line, name)

    def add(self, line, name):
        if line[:1] == "P":
            self.posts[-1].append(line)
        elif line[:1] == "R":
            self.masks.append(int(line[1:]))
            self.lines.append([])
            self.posts.append([])
            self.refusals.append([])
        elif line[7:8] == "X":
            self.refusals[-1].append(line)
        elif line[7:8] in ("D", "A", "E") and self.lines:
            self.lines[-1].append(line)
        else:
            raise Wrong(f"{name}: a line that does not belong there: {line[:60]!r}")


def read(files):
    """The reports in these files, those of stations 0 to N - 1 in this order."""
    return [Report(pathlib.Path(file).read_text(encoding="ascii"), file) for file in files]


def rounds_of(reports):
    """How many rounds all of them have closed."""
    return min(len(report.masks) for report in reports)


def script_of(reports):
    lines = [f"N{len(reports):9d}"]
    for done in range(rounds_of(reports)):
        lines += [line for report in reports for line in report.posts[done]]
        lines.append("R" + "".join(f"{report.masks[done]:9d}" for report in reports))
    return "\n".join(lines) + "\n"


def listing_of(reports):
    lines = []
    for done in range(rounds_of(reports)):
        lines += [line for report in reports for line in report.refusals[done]]
        lines += [line for report in reports for line in report.lines[done]]
    return "\n".join([*lines, "END"]) + "\n"


def compare(reports):
    """Compares what the stations told with the listing of the script that they make, line by line. RELAY_LISTING names
    another command than ./listing."""
    command = shlex.split(os.environ.get("RELAY_LISTING", "./listing -"))
    done = subprocess.run(command, input=script_of(reports), capture_output=True, text=True, cwd=ROOT, check=False)
    if done.returncode or done.stderr:
        raise Wrong(f"the listing of the recorded script: status {done.returncode}, {done.stderr[-300:]}")
    for number, (line, other) in enumerate(zip_longest(done.stdout.splitlines(), listing_of(reports).splitlines()), 1):
        if line != other:
            raise Wrong(f"line {number}: the listing has {line!r}, the stations told {other!r}")
