"""Listings in memory: files are mapped and not read, and the first fault is named by its line.

Whether bytes are a listing, the library judges; here stand only the words for a line that it refuses.
"""

import ctypes
import mmap
import os
import re
import stat

from . import library, plans
from .faults import Missing

LINE, LAST_LINE = 35, b"END\n"
LETTERS = b"ADEX"
FIELDS = (  # first column from 0, columns, what stands there, and whether it may have a minus
    (0, 6, "round", False), (8, 3, "station", False), (11, 3, "source", False), (14, 2, "kind", False),
    (16, 9, "event", False), (25, 9, "argument", True))
SHOWN = 60  # bytes of a line that is no line
BLOCK = 1 << 15  # lines that are judged at once in search of a fault

C = ctypes.CDLL(None, use_errno=True)
C.mmap.restype = ctypes.c_void_p


def mapped(file, size):
    """The bytes of a file, mapped for reading. Python's own maps tell no address unless they can be written to."""
    address = C.mmap(None, ctypes.c_size_t(size), mmap.PROT_READ, mmap.MAP_PRIVATE, file, ctypes.c_long(0))
    if address in (None, ctypes.c_void_p(-1).value):
        raise OSError(ctypes.get_errno(), os.strerror(ctypes.get_errno()))
    return (ctypes.c_char * size).from_address(address)


class Listing:
    """A listing's bytes, lent to the library where they lie. A pipe is read; a file is mapped, whatever its size."""

    def __init__(self, name):
        self.name = name
        try:
            file = plans.opened(name)
            kept = os.fstat(file)
            self.size = kept.st_size
            if stat.S_ISREG(kept.st_mode) and self.size:
                self.memory = mapped(file, self.size)
            else:
                held = read_all(file)
                self.size = len(held)
                self.memory = (ctypes.c_char * max(1, self.size)).from_buffer_copy(held or b"\0")
        except OSError as wrong:
            raise Missing(f"cannot read {plans.shown(name)}: {wrong.strerror}") from None
        self.lent = ctypes.addressof(self.memory), self.size

    def text(self, at):
        """The line that begins at a byte, for the user."""
        return self.memory[at:at + LINE].split(b"\n")[0].decode("latin-1")

    def well(self, begin, end):
        """Whether the lines from one number to another are well formed: then they are a listing with the last line."""
        lines = bytearray(self.memory[begin * LINE:end * LINE] + LAST_LINE)
        held = (ctypes.c_char * len(lines)).from_buffer(lines)
        lent = ctypes.addressof(held), len(lines)
        return library.compare(lent, 0, lent, 0)[0] == 0

    def fault(self):
        """The first line that is at fault, in words; the bytes are no listing."""
        whole = self.size // LINE
        good = 0
        while good < whole and self.well(good, min(whole, good + BLOCK)):
            good = min(whole, good + BLOCK)
        first, bad = good, min(whole, good + BLOCK)
        while good < bad:
            middle = (good + bad) // 2
            good, bad = (middle + 1, bad) if self.well(first, middle + 1) else (good, middle)
        return f"line {good + 1}: {words(self.memory[good * LINE:min(self.size, good * LINE + 2 * LINE)])}"


def read_all(file):
    parts = []
    while part := os.read(file, 1 << 20):
        parts.append(part)
    return b"".join(parts)


def words(text):
    """What is wrong with the line at the front of these bytes."""
    line, end, after = text.partition(b"\n")
    if not text:
        return "the last line, END, is missing"
    if line == b"END" and end and after:
        return f"{'bytes follow' if len(after) > 1 else 'a byte follows'} END"
    if not end and len(line) <= LINE - 1:
        return f"{shown(line)} has no line end"
    if len(line) != LINE - 1:
        return f"{shown(line)} has {len(line) if end else f'{len(line)} or more'} columns where a line has {LINE - 1}"
    if line[6:7] != b" ":
        return f"column 7 is {shown(line[6:7])}; it is a space"
    if line[7] not in LETTERS:
        return f"the letter is {shown(line[7:8])}; it is A, D, E or X"
    for at, columns, name, minus in FIELDS:
        field = line[at:at + columns]
        if not re.fullmatch(rb" *(0|-?[1-9][0-9]*)" if minus else rb" *(0|[1-9][0-9]*)", field):
            form = "a number, right-justified, without leading zeros" + (" or minus zero" if minus else " or a minus")
            return f"the {name} in columns {at + 1} to {at + columns} is {shown(field)}; it is {form}"
    return f"{shown(line)} does not have the listing's form"


def shown(text):
    return repr(text[:SHOWN].decode("latin-1")) + ".." * (len(text) > SHOWN)
