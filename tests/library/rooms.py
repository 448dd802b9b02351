"""Lent buffers between pages that cannot be touched: a signal ends a call that reads or writes outside of one."""

import ctypes
import mmap
from array import array

C = ctypes.CDLL(None, use_errno=True)
NO_ACCESS = 0


class Room:
    """Memory for one lent buffer, with such a page before it and one after it."""

    def __init__(self, size=1 << 18):
        self.size = size
        self.memory = mmap.mmap(-1, size + 2 * mmap.PAGESIZE)
        start = ctypes.addressof(ctypes.c_char.from_buffer(self.memory))
        self.first = start + mmap.PAGESIZE
        for page in (start, self.first + size):
            if C.mprotect(ctypes.c_void_p(page), ctypes.c_size_t(mmap.PAGESIZE), NO_ACCESS):
                raise OSError(ctypes.get_errno(), "mprotect")

    def lend(self, values, at_end):
        """Copies an array to the start or the end of the room; gives its address and length."""
        size = values.itemsize * len(values)
        assert size <= self.size
        address = self.first + (self.size - size if at_end else 0)
        ctypes.memmove(address, values.buffer_info()[0], size)
        return address, len(values)


def held(lent, typecode):
    """What a lent buffer holds now."""
    address, length = lent
    values = array(typecode)
    values.frombytes(ctypes.string_at(address, length * values.itemsize))
    return values


def view(lent, kind):
    """A lent buffer as a ctypes array, to be changed in place."""
    address, length = lent
    return (kind * length).from_address(address)
