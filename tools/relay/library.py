"""The relay's C library from Python: finds or makes the shared object, and one function for each call.

In the repository the shared object stands beside the archive crates/relay/out/librelay.a and is made of it.
RELAY_ARCHIVE names another archive, RELAY_LIBRARY another shared object.
"""

import ctypes
import functools
import os
import pathlib
import shlex
import shutil
import subprocess
import sys
import tempfile
import threading
import time
from array import array

from . import places
from .faults import Missing

CRATE = "relay"
ARCHIVE = pathlib.Path("crates", CRATE, "out", f"lib{CRATE}.a")
PLACES = 16


# Finding and making it.

def shared_object():
    """The shared object's file, made anew where its archive is newer."""
    if os.environ.get("RELAY_LIBRARY"):
        return pathlib.Path(os.environ["RELAY_LIBRARY"])
    if places.INSTALLED:
        return places.LIBRARY
    archive = archive_file()
    made = archive.with_suffix(".so")
    if not made.exists() or made.stat().st_mtime_ns < archive.stat().st_mtime_ns:
        link(archive, made)
    return made


def archive_file():
    """The archive's file, built where it is missing."""
    named = os.environ.get("RELAY_ARCHIVE")
    archive = pathlib.Path(named) if named else places.ROOT / ARCHIVE
    if not archive.exists() and not named:
        build("lib", CRATE, ARCHIVE)
    if not archive.exists():
        raise Missing(f"there is no archive {archive}")
    return archive


def build(how, name, made):
    """Has rt make a file of the repository that is missing."""
    if not shutil.which("rt"):
        raise Missing("this machine lacks 'rt', the command of the Rattle toolchain")
    print(f"relay: {made} is missing; 'rt {how}' in crates/{name} proves and builds it, which takes some minutes",
          file=sys.stderr)
    import rt_build     # of the repository, and not installed
    rt_build.build(how, name, places.ROOT)


def link(archive, made, *options):
    """Makes the shared object. It gets its name when it is whole, so another command never meets half of it."""
    compiler = shlex.split(os.environ.get("CC", "gcc"))
    if not shutil.which(compiler[0]):
        raise Missing(f"this machine lacks '{compiler[0]}': install Debian's package gcc")
    with tempfile.TemporaryDirectory(dir=made.parent) as folder:
        part = pathlib.Path(folder, made.name)
        done = subprocess.run([*compiler, "-shared", *options, "-o", part, "-Wl,--whole-archive", archive,
                               "-Wl,--no-whole-archive"], capture_output=True, text=True, check=False)
        if done.returncode:
            raise Missing(f"{compiler[0]} cannot make a shared object of {archive}: {done.stderr.strip()}")
        part.replace(made)


@functools.cache
def exported(name):
    """One function of the library."""
    file = shared_object()
    try:
        function = getattr(ctypes.CDLL(str(file.resolve())), name)
    except OSError as wrong:
        raise Missing(f"cannot load the library: {wrong}") from None
    except AttributeError:
        raise Missing(f"{file} has no {name}: 'rt lib' in crates/{CRATE} builds it anew") from None
    function.restype = ctypes.c_uint32
    return function


# The calls. Each gives its refusal, 0 where it is done, and what it answers.

class Clock(threading.local):
    """The processor time that the library has taken in this thread."""
    seconds = 0.0


clock = Clock()


def call(name, *arguments):
    """Calls a function of the library. A lent buffer is an array, or the pair of an address and a length."""
    values = []
    for argument in arguments:
        if isinstance(argument, int):
            values.append(ctypes.c_uint32(argument))
        else:
            address, length = argument.buffer_info() if isinstance(argument, array) else argument
            values += ctypes.c_void_p(address), ctypes.c_size_t(length)
    function, began = exported(name), time.thread_time()
    refusal = function(*values)
    clock.seconds += time.thread_time() - began
    return refusal


# As include/relay.h defines them.
GROUP_BYTES, REPORT_BYTES, ROUND_BYTES = 23_872, 704, 11_264
BULLETINS_BYTES, SHOWN_BYTES, ROUND_SHOWN_BYTES = 644, 772, 12_352


def group_fresh(n, limit, edition):
    """A fresh group of an edition as bytes, in which so many edits of a desk may wait at a station."""
    state = array("B", bytes(GROUP_BYTES))
    return call("relay_group_fresh_edition", state, n, limit, edition), state


def group_post(state, station, desk, kind, event, argument, channel):
    """Posts an edit; the state becomes the group with it, unless the post is refused."""
    return call("relay_group_post", state, station, desk, kind, event, argument, channel)


def bulletins_fresh(n):
    """The bulletins of a fresh group as bytes: none."""
    state = array("B", bytes(BULLETINS_BYTES))
    return call("relay_bulletins_fresh", state, n), state


def bulletins_issue(state, issuer, tag, event):
    """Issues a bulletin; the state becomes the bulletins with it, unless the issue is refused."""
    return call("relay_bulletins_issue", state, issuer, tag, event)


def bulletins_round(group, state, masks):
    """Runs a round of a group and its bulletins with a mask for each station; both states become those after it.

    Gives the reports and what is shown, as bytes.
    """
    reports, shown = array("B", bytes(ROUND_BYTES)), array("B", bytes(ROUND_SHOWN_BYTES))
    sixteen = array("H", [*masks, *[0] * (PLACES - len(masks))])
    return call("relay_bulletins_round", group, state, sixteen, reports, shown), (reports, shown)


def forecast(n, log):
    """For each of sixteen stations how many broadcasts end, and the round of the last. The log is an array of masks."""
    ends, last = array("H", [0] * PLACES), array("H", [0] * PLACES)
    return call("relay_forecast", log, n, ends, last), (list(ends), list(last))


def merge(n, first, second):
    """The log of two carriers together; logs are arrays of masks."""
    merged, masks = array("H", bytes(2 * max(len(first), len(second)))), array("I", [0])
    refusal = call("relay_merge", first, second, n, merged, masks)
    return refusal, merged[:masks[0]]


NEVER = 2 ** 32 - 1     # in the answers of C
MOST_QUESTIONS = 64     # in one call


def questions(n, log, asked):
    """For each question (s, r, k) the round by which r has the k-th broadcast of s, or None for never."""
    answers = array("I", [0] * len(asked))
    refusal = call("relay_questions", log, n, array("I", [number for one in asked for number in one]), answers)
    return refusal, [None if one == NEVER else one for one in answers]


def contest(n, station, sets, rounds):
    """Who can force the result, 0 for the breaker and 1 for the keeper, and the keeper's first pick."""
    answer = array("I", [0, 0])
    return call("relay_contest", n, station, array("H", sets), rounds, answer), tuple(answer)


def load(state, n, due, head, buffer):
    """Writes the next lines of a generated script into the buffer, an array; gives their length and the next state."""
    after = array("I", [0, 0])
    return call("relay_load", state, n, due, int(head), buffer, after), (after[1], after[0])


ANSWERS = "equal", "first begins second", "second begins first", "different"   # by the number of C


def compare(first, p, second, q):
    """How the log of station p in one listing compares with that of q in another: a place in ANSWERS, and the position.

    A listing is an array of bytes, or the pair of an address and a length.
    """
    answer = array("Q", [0, 0])
    return call("relay_compare", first, p, second, q, answer), tuple(answer)
