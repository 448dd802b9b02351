"""Has rt prove and build a crate: python3 tools/rt_build.py lib|run NAME, in the repository.

A static library, `lib`, is then crates/NAME/out/libNAME.a, and a program, `run`, is crates/NAME/out/NAME; rt builds a
program only to run it, so it is run once, on nothing. On a terminal it shows how many crates are proved, and what rt
says only where it fails; elsewhere all that rt says goes to standard error.
"""

import collections
import pathlib
import re
import signal
import subprocess
import sys

import progress

ROOT = pathlib.Path(__file__).resolve().parent.parent
PROVED = re.compile(r"logic=proved\b")
SHOWN = 20      # last lines of a build that fails


def crates(root, name):
    """How many crates are to be proved at most: the crate and all that it stands on, but for those that are built."""
    try:
        lines = (root / "crates.txt").read_text(encoding="utf-8").splitlines()
    except OSError:
        return 0
    pairs = [line.partition(":") for line in lines if line[:1] not in ("", "#")]
    below = {named.split()[0]: rest.split() for named, _, rest in pairs}
    return len({name, *below.get(name, ())} & set(below))


def build(how, name, root=ROOT):
    """Runs `rt lib` or `rt run` in the crate's folder; its exit status."""
    options = {"cwd": root / "crates" / name, "stdin": subprocess.DEVNULL}
    # What the program itself prints is of no interest; rt then speaks on standard error.
    runs = how == "run"
    if not progress.on_a_terminal(beside_output=False):
        return subprocess.run(["rt", how], stdout=subprocess.DEVNULL if runs else 2, check=False, **options).returncode
    proved, last = 0, collections.deque(maxlen=SHOWN)
    total = crates(root, name)
    streams = {"stdout": subprocess.DEVNULL, "stderr": subprocess.PIPE} if runs else \
              {"stdout": subprocess.PIPE, "stderr": subprocess.STDOUT}
    with progress.working(lambda: f"{name}: {proved} of at most {total} crates proved"), \
         subprocess.Popen(["rt", how], text=True, errors="replace", **streams, **options) as running:
        for line in running.stderr if runs else running.stdout:
            last.append(line)
            proved += PROVED.match(line) is not None
    if running.returncode:
        sys.stderr.writelines(last)
    return running.returncode


if __name__ == "__main__":
    try:
        sys.exit(build(*sys.argv[1:]))
    except KeyboardInterrupt:
        sys.exit(128 + signal.SIGINT)
