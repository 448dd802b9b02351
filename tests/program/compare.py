"""Counts what agrees, says what differs, and keeps the scripts on which program and model differ."""

import functools
import re
from itertools import zip_longest

from model import listing

from . import command

FAILURES = command.ROOT / "tests" / "failures"
SHOWN = 20  # differences that are told and kept; the others are only counted


model_listing = functools.lru_cache(maxsize=16)(listing.listing)


class Comparison:
    """The listings of one program beside the model's."""

    def __init__(self, check, program, told=True, kept=True):
        self.check, self.program, self.told, self.kept = check, program, told, kept
        self.passed = self.failed = self.differences = self.scripts = 0
        self.refusals, self.letters, self.sizes = set(), set(), set()  # what the scripts came to
        self.print = functools.partial(print, flush=True)

    def listing(self, name, script, run=command.whole, expected=None):
        """One test: the listing of one script."""
        self.count(self.same(name, script, run, expected))

    def listings(self, name, scripts):
        """One test: the listings of many scripts, each with a name of its own."""
        before = self.scripts
        self.count(all([self.same(f"{name}, {which}", script) for which, script in scripts]))
        self.say(f"{name}: {self.scripts - before:,} scripts")

    def holds(self, name, found):
        """One test: something that must be so."""
        if not found:
            self.say(f"{name}: not so")
        self.count(found)

    def count(self, good):
        self.passed += good
        self.failed += not good

    def same(self, name, script, run=command.whole, expected=None):
        expected = model_listing(script) if expected is None else expected
        self.scripts += 1
        self.reach(script, expected)
        got = run(self.program, script)
        if got == (expected, ""):
            return True
        self.differences += 1
        if self.told and self.differences <= SHOWN:
            self.say(f"{name}: {difference(expected, got)}")
            if self.kept:
                self.say(f"    the script is kept: tests/check-listing {keep(name, '.script', script)}")
        return False

    def say(self, text):
        if self.told:
            self.print(f"{self.check}: {text}")

    def reach(self, script, expected):
        """Notes which letters, refusals and sizes of group the scripts come to."""
        if (size := re.match(rb"N {7,8}(1?[0-9])\n", script)) is not None:
            self.sizes.add(int(size[1]))
        for letter, source in set(re.findall(rb"(?m)^.{7}([DAEX])...(...)", expected)):
            self.letters.add(letter)
            if letter == b"X":
                self.refusals.add(int(source))


def keep(name, suffix, data):
    """Writes what something differs on to a file, and gives the file's name from the repository's root."""
    FAILURES.mkdir(exist_ok=True)
    kept = FAILURES / (re.sub(r"[^a-z0-9]+", "-", name.lower()).strip("-")[:80] + suffix)
    kept.write_bytes(data)
    return kept.relative_to(command.ROOT)


def difference(expected, got):
    """What is wrong with what a program gave: its end, or the first line that differs and how."""
    lines = zip_longest(expected.split(b"\n"), got.output.split(b"\n"))
    for number, (line, other) in enumerate(lines, 1):
        if line != other:
            where = f"line {number} of the listing{columns(line, other)}: the model has {shown(line)}, the program {shown(other)}"
            return f"{where}; {got.fault}" if got.fault else where
    return f"the listing is right, but {got.fault}"


def columns(line, other):
    """Where two lines of one length differ."""
    if line is None or other is None or len(line) != len(other):
        return ""
    wrong = [at for at, (one, two) in enumerate(zip(line, other), 1) if one != two]
    return f", column {wrong[0]}" if len(wrong) == 1 else f", columns {wrong[0]} to {wrong[-1]}"


def shown(line):
    if line is None:
        return "no such line"
    text = line.decode("latin-1").encode("unicode_escape").decode("ascii")
    return f"'{text}'" if len(text) < 80 else f"'{text[:80]}'.. ({len(line)} bytes)"
