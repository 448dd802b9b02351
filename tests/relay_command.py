"""The command ./relay, run by tests."""

import os
import pathlib
import pty
import re
import subprocess
import sys

ROOT = pathlib.Path(__file__).resolve().parent.parent
sys.path.append(str(ROOT / "tools"))


def build():
    """Has the library and the listing program built where they are missing, so that no command that a test runs says that it does."""
    for command in (["relay", "forecast", ROOT / "examples" / "five-stations.plan"], ["listing"]):
        subprocess.run([ROOT / command[0], *command[1:]], stdin=subprocess.DEVNULL, stdout=subprocess.DEVNULL, check=False)


def run(*arguments, given=b"", **options):
    """Exit status, standard output and standard error."""
    done = subprocess.run([ROOT / "relay", *arguments], input=given, capture_output=True, check=False, **options)
    return done.returncode, done.stdout.decode(), done.stderr.decode()


def on_a_terminal(command, **options):
    """Exit status and standard error of a command, where the latter is a terminal."""
    terminal, other = pty.openpty()
    said = b""
    with subprocess.Popen(command, stderr=other, **{"stdout": subprocess.DEVNULL, **options}) as running:
        os.close(other)
        try:
            while part := os.read(terminal, 4096):
                said += part
        except OSError:
            pass    # the terminal's other side is closed
    os.close(terminal)
    return running.returncode, said.decode()


def example_of(help_text):
    """The command lines of a help's example."""
    return [line.strip() for line in re.search(r"(?m)^example:\n((?: .*\n?)+)", help_text)[1].splitlines()]
