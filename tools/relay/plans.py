"""Link plans. A plan is a script of which the N line and the R lines count; P lines are judged and passed over."""

import errno
import os
import sys
from array import array
from typing import NamedTuple

from script_faults import ScriptReader

from .faults import Missing, Wrong

PART = 1 << 16       # bytes
MOST_ROUNDS = 2_048  # for the words of a refusal only: the library judges
QUOTED = 60          # characters of what is malformed


class Plan(NamedTuple):
    name: str
    n: int
    log: array   # the masks, N a round, round after round

    @property
    def rounds(self):
        return len(self.log) // self.n


class PlanReader(ScriptReader):
    def __init__(self):
        super().__init__()
        self.log = array("H")

    def take(self, letter, numbers):
        if letter == b"R":
            self.log.extend(numbers)


def opened(name):
    """The descriptor of a file, or of standard input."""
    if name != "-":
        return os.open(name, os.O_RDONLY)
    if sys.stdin is None:
        raise OSError(errno.EBADF, "it is closed")
    return 0


def parts(name):
    """The bytes of a file, or of standard input, part by part."""
    try:
        file = opened(name)
        while part := os.read(file, PART):
            yield part
    except OSError as wrong:
        raise Missing(f"cannot read {shown(name)}: {wrong.strerror}") from None


def read(name):
    """The plan of a file; '-' is standard input. It is read up to its first fault, so it may be endless."""
    return read_parts(name, parts(name))


def read_parts(name, text):
    """The plan of this name, whose text comes part by part."""
    reader = PlanReader()
    for part in text:
        reader.read(part)
        if reader.fault:
            break
    else:
        reader.close()
    if reader.fault:
        raise Wrong(f"{shown(name)}, line {reader.lines + 1}: {reader.fault}")
    return Plan(name, reader.n, reader.log)


def refused(refusal, *plans):
    """What the library's refusal of some of these plans means."""
    longest = max(plans, key=lambda plan: plan.rounds)
    words = f"refused with {refusal}"
    if refusal == 12:
        words += f": the plan has {counted(longest.rounds, 'round')}, and at most {MOST_ROUNDS:,} are taken"
    return Wrong(f"{shown(longest.name)}: {words}")


def text(n, log):
    """The lines of a plan."""
    rounds = (log[at:at + n] for at in range(0, len(log), n))
    return f"N{n:9d}\n" + "".join("R" + "".join(f"{mask:9d}" for mask in masks) + "\n" for masks in rounds)


def number(word, most):
    """The number that a word is, or None where it is no number or a larger one."""
    short = word.isascii() and word.isdigit() and len(word) <= len(str(most))
    return int(word) if short and int(word) <= most else None


def shown(name):
    return "standard input" if name == "-" else name or "''"


def quoted(text):
    """The front of a text that is malformed."""
    return repr(text[:QUOTED]) + ".." * (len(text) > QUOTED)


def counted(count, noun):
    return f"{count:,} {noun}{'s' * (count != 1)}"


def windows(plan, hearer, heard):
    """The link windows: each longest run of rounds in which one station hears the other, as first and last round."""
    found = []
    for number, mask in enumerate(plan.log[hearer::plan.n], 1):
        if mask >> heard & 1:
            if found and found[-1][1] == number - 1:
                found[-1] = found[-1][0], number
            else:
                found.append((number, number))
    return found
