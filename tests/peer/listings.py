"""Scripts and their listings."""

from itertools import zip_longest

from model import listing, malformed, scripts

from . import built
from .compare import agree

SEEDED_SCRIPTS = 72
LAST_ROUND_PAST = b"999999 X  0 11 0        0        0\nEND\n"


def compare():
    for example in sorted((built.ROOT / "examples").glob("*.script")):
        agree_on(example.name, example.read_bytes())
    for seed in range(SEEDED_SCRIPTS):
        agree_on(f"script of seed {seed}", scripts.seeded_script(seed))
    for name, script, _ in malformed.malformed_scripts():
        agree_on(name, script)
    agree_on("any bytes", bytes(range(256)))
    agree_on("a long line", scripts.script_line(b"N", (2,)) + b"R" * 100_000 + b"\n")
    compare_last_round()


def agree_on(name, script):
    expected, got = listing.listing(script).split(b"\n"), built.listing(script).split(b"\n")
    agree(name, [(f"line {number}", line, other) for number, (line, other) in enumerate(zip_longest(expected, got), 1)])


def compare_last_round():
    """A round past 999,999 is malformed. The model would take long, so its listing is given here."""
    silent = scripts.script_line(b"R", (0, 0))
    got = built.listing(scripts.script_line(b"N", (2,)) + silent * 1_000_001)
    agree("a round past 999,999", [("listing", LAST_ROUND_PAST, got)])
