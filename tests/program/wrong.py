"""Programs that are wrong on purpose, made of the right one and a filter: the comparison must notice each."""

import os
import pathlib
import shlex
import tempfile

from . import named, parts, swept
from .compare import Comparison

FORMS, SIZES, BYTES, LENGTHS, GIVEN = named.malformed_forms, named.of_each_size, swept.every_byte, parts.lengths, parts.scripts

# What is wrong: the scripts that must notice it, and the program, where RIGHT is the right one.
WRONG = {
    "D and E exchanged": (SIZES, r"RIGHT | sed -E 's/^(.{7})D/\1e/; s/^(.{7})E/\1D/; s/^(.{7})e/\1E/'"),
    "a digit of an argument": (SIZES, r"RIGHT | sed -E '20s/.$/7/'"),
    "END misspelt": (FORMS, r"RIGHT | sed 's/^END/ENd/'"),
    "END without its line end": (FORMS, r"RIGHT | head -c -1"),
    "a line too many at the end": (FORMS, r"RIGHT; echo END"),
    "nothing at all": (FORMS, r"RIGHT >/dev/null"),
    "X with the next round": (FORMS, r"RIGHT | sed 's/^     1 X/     2 X/'"),
    "X with another refusal": (SIZES, r"RIGHT | sed 's/X  0  4/X  0  1/'"),
    "two lines exchanged": (SIZES, r"RIGHT | awk 'NR == 2 { one = $0; next } { print } NR == 3 { print one } END { if (NR == 2) print one }'"),
    "a failing status": (FORMS, r"RIGHT; exit 3"),
    "a crash after its output": (FORMS, r"RIGHT; kill -SEGV $$"),
    "leading zeros read": (FORMS, r"sed -E 's/ 0([1-9])/  \1/g' | RIGHT"),
    "minus zero read": (FORMS, r"sed 's/-0$/ 0/' | RIGHT"),
    "lower case read": (FORMS, r"tr npr NPR | RIGHT"),
    "carriage returns skipped": (FORMS, r"tr -d '\r' | RIGHT"),
    "tabs read as spaces": (FORMS, r"tr '\t' ' ' | RIGHT"),
    "NUL read as a space": (FORMS, r"tr '\000' ' ' | RIGHT"),
    "the high bit ignored": (BYTES, r"tr '\200-\377' '\000-\177' | RIGHT"),
    "a missing line end added": (FORMS, r"sed '$a\' | RIGHT"),
    "empty lines skipped": (FORMS, r"sed '/^$/d' | RIGHT"),
    "a second size skipped": (FORMS, r"sed '2,$ { /^N/d }' | RIGHT"),
    "unknown lines skipped": (FORMS, r"sed '/^[^NPR]/d' | RIGHT"),
    "spaces at the end skipped": (FORMS, r"sed 's/ *$//' | RIGHT"),
    "long lines cut": (FORMS, r"cut -b 1-38 | RIGHT"),
    "nobody heard": (SIZES, r"sed -E '/^R/ s/[0-9]/ /g; /^R/ s/ {8} /        0/g' | RIGHT"),
    "refused posts not printed": (SIZES, r"RIGHT | grep -v X"),
    "a queue of 31": (SIZES, r"awk '/^P/ { c++; if (c == 32) next } { print }' | RIGHT"),
    "only 4,096 bytes read": (LENGTHS, r"head -c 4096 | RIGHT"),
    "only one part read": (GIVEN, r"dd bs=200000 count=1 2>/dev/null | RIGHT"),
    "a part of 7 bytes lost": (GIVEN, r"dd bs=7 skip=3 2>/dev/null | RIGHT"),
}

NOT_WRONG = r"cat | RIGHT | cat"


def noticed(program, command, scripts):
    """Whether some of the scripts notice a program; the first that does is enough."""
    with tempfile.TemporaryDirectory() as folder:
        wrong = pathlib.Path(folder, "wrong")
        wrong.write_text("#!/bin/sh\n" + command.replace("RIGHT", shlex.quote(os.path.abspath(program))) + "\n")
        wrong.chmod(0o755)
        comparison = Comparison("", wrong, told=False)
        return not all(comparison.same(*case) for case in scripts())


def test(comparison):
    for name, (scripts, command) in WRONG.items():
        comparison.holds(f"a wrong program is noticed: {name}", noticed(comparison.program, command, scripts))
    comparison.holds("a right program behind filters is not taken for a wrong one", not noticed(comparison.program, NOT_WRONG, FORMS))
