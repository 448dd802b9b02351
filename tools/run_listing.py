"""Runs the listing program on a script, for ./listing: python3 tools/run_listing.py PROGRAM SCRIPT ('-' is standard input).

The program writes the listing itself. What is added goes to standard error: why a line stops the reading and, on a terminal, how far a long script is.
The script is passed on while it is read, so it may be of any length. The exit status is the program's: 2 where it could not read or write.
"""

import contextlib
import os
import signal
import subprocess
import sys

from progress import Reading
from script_faults import ScriptReader

PART = 1 << 16      # bytes
FAILED = 2


def feed(script, pipe, reader, progress):
    """Gives the program the script, up to its end or to the line that stops the reading."""
    while part := os.read(script, PART):
        progress.read(part, reader.rounds)
        taken = write_all(pipe, part)
        reader.read(part)
        if reader.fault or not taken:
            return
    reader.close()


def write_all(pipe, part):
    """Whether the program took the whole part. A write can be cut short, as when the command is stopped and goes on."""
    try:
        while part:
            part = part[os.write(pipe, part):]
    except BrokenPipeError:
        return False
    return True


def say(text):
    """On standard error, where that takes it."""
    with contextlib.suppress(OSError):
        os.write(2, f"listing: {text}\n".encode(errors="backslashreplace"))


def shown(name):
    return "standard input" if name == "-" else name or "''"


def status_of(running, complaints):
    """The exit status. A program's own may be 0 also where it cannot read or write, and says so."""
    if complaints:
        with contextlib.suppress(OSError):
            os.write(2, complaints)
    if running.returncode >= 0:
        return running.returncode or (FAILED if complaints else 0)
    if running.returncode != -signal.SIGPIPE:
        say(f"the program was ended by signal {-running.returncode}")
    return 128 - running.returncode


def main():
    program, name = sys.argv[1:]
    try:
        script = 0 if name == "-" else os.open(name, os.O_RDONLY)
        os.read(script, 0)
    except OSError as wrong:
        say(f"cannot read {shown(name)}: {wrong.strerror}")
        return FAILED
    reader, progress = ScriptReader(), Reading("listing", os.fstat(script).st_size)
    with open(os.memfd_create("complaints"), "r+b") as complaints:     # in memory, for a disk may be full
        try:
            running = subprocess.Popen([program], stdin=subprocess.PIPE, stderr=complaints, bufsize=0)
        except OSError as wrong:
            say(f"cannot run {program}: {wrong.strerror}")
            return FAILED
        with running:
            feed(script, running.stdin.fileno(), reader, progress)
            running.stdin.close()
        progress.clear()
        if reader.fault:
            say(f"{shown(name)}, line {reader.lines + 1}: {reader.fault}; the reading stops there")
        complaints.seek(0)
        return status_of(running, complaints.read())


if __name__ == "__main__":
    try:
        sys.exit(main())
    except KeyboardInterrupt:
        sys.exit(128 + signal.SIGINT)
