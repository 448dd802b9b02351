"""Every byte, every length and every count of numbers at their places in a line."""

from model.malformed import GOOD_ROUND, N2
from model.scripts import script_line

BEFORE = {"size": b"", "round": N2 + GOOD_ROUND, "post": N2 + GOOD_ROUND}  # what stands before a line of each name
LINES = {"size": N2, "round": GOOD_ROUND, "post": b"P        0        4        7      -10\n"}


def every_byte():
    """Each line with every byte in the place of its letter, of its last digit and of its line end; a round's first space and a post's minus too."""
    for name, line in LINES.items():
        for at in sorted({0, len(line) - 2, len(line) - 1, {"size": 0, "round": 1, "post": len(line) - 4}[name]}):
            for byte in range(256):
                yield f"{name} with byte {byte} in column {at + 1}", BEFORE[name] + line[:at] + bytes([byte]) + line[at + 1:] + GOOD_ROUND


def every_length():
    """Each line cut to every length, with its line end and without, and made longer by its own numbers, up to 200 columns."""
    for name, line in LINES.items():
        for length in range(len(line)):
            yield f"{name} cut to {length} columns", BEFORE[name] + line[:length] + b"\n" + GOOD_ROUND
            yield f"{name} broken off at {length} columns", BEFORE[name] + line[:length]
        for length in range(len(line), 201):
            yield f"{name} of {length} columns", BEFORE[name] + (line[:-1] + line[-10:-1] * 30)[:length] + b"\n" + GOOD_ROUND
        for more in (1, 2, 9, 18):
            for byte in (b" ", b"0", b"\r", b"\x00"):
                yield f"{name} and {more} bytes {byte[0]}", BEFORE[name] + line[:-1] + byte * more + b"\n" + GOOD_ROUND


def every_count():
    """Rounds of 0 to 17 masks in every group, and sizes and posts of 0 to 17 numbers."""
    for n in range(1, 17):
        for count in range(18):
            yield f"round of {count} masks among {n}", script_line(b"N", (n,)) + script_line(b"R", [1] * count) * 2
    for count in range(18):
        yield f"size of {count} numbers", script_line(b"N", [2] * count) + GOOD_ROUND
        yield f"post of {count} numbers", N2 + script_line(b"P", [3] * count) + GOOD_ROUND


def every_limit():
    """Sizes and masks about their limits, and those that would be in them once cut to fewer bits."""
    for size in (*range(34), *range(255, 274), 65_536, 65_537, 16_777_218, 99_999_999, 999_999_999):
        yield f"size {size}", script_line(b"N", (size,)) + script_line(b"R", [0] * min(size, 16))
    for mask in (0, 1, 2, 3, 4, 255, 256, 32_767, 32_768, 65_534, 65_535, 65_536, 65_537, 65_538, 99_999, 131_073, 16_777_218, 999_999_999):
        for masks in ((mask, 1), (2, mask)):
            yield f"masks {masks[0]} and {masks[1]}", N2 + script_line(b"R", masks) * 3
