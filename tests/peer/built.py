"""The peers as bench/build makes them, called from here."""

import ctypes
import pathlib
import subprocess

from .values import Reader

ROOT = pathlib.Path(__file__).resolve().parent.parent.parent
BUILT = ROOT / "target" / "bench"


def build():
    return subprocess.run([ROOT / "bench" / "build"]).returncode == 0


def listing(script):
    return subprocess.run([BUILT / "peer_listing"], input=script, stdout=subprocess.PIPE, check=True).stdout


def frame_checks():
    """The frame checks by name: in Rust, and in C with each compiler that is installed."""
    libraries = {"rust": "libpeer_calls.so", "gcc": "libframe_check_gcc.so", "clang": "libframe_check_clang.so"}
    for name, library in libraries.items():
        if (BUILT / library).exists():
            check = ctypes.CDLL(BUILT / library)[f"frame_check_peer_{name}"]
            check.argtypes = (ctypes.c_char_p, ctypes.c_size_t, ctypes.c_uint32, ctypes.c_uint32, ctypes.c_uint32)
            check.restype = ctypes.c_uint32
            yield name, lambda data, *how, check=check: check(data, len(data), *how)


def call(name, data):
    """The refusal and the other number of the answer, and a reader of what comes after them."""
    library = ctypes.CDLL(BUILT / "libpeer_calls.so")
    library.peer_call.argtypes = (ctypes.c_uint8, ctypes.c_char_p, ctypes.c_size_t, ctypes.c_char_p, ctypes.c_size_t)
    library.peer_call.restype = ctypes.c_size_t
    out = ctypes.create_string_buffer(1 << 16)
    length = library.peer_call(ord(name), data, len(data), out, len(out))
    reader = Reader(out.raw[:length])
    return reader.number(), int.from_bytes(reader.bytes(4), "little"), reader


def load(state, n, due, head, buffer, places):
    """The refusal of the load generator's call; the buffer and the places, arrays, are changed in place."""
    peer = ctypes.CDLL(BUILT / "libpeer_calls.so").peer_load
    lent = []
    for one in (buffer, places):
        address, length = one.buffer_info()
        lent += ctypes.c_void_p(address), ctypes.c_size_t(length)
    peer.restype = ctypes.c_uint32
    return peer(*map(ctypes.c_uint32, (state, n, due, head)), *lent)


def compare(first, p, second, q):
    """The refusal of the comparison of two air logs, its answer and its position."""
    peer = ctypes.CDLL(BUILT / "libpeer_calls.so").peer_compare
    answer = (ctypes.c_uint64 * 2)()
    peer.argtypes = (ctypes.c_char_p, ctypes.c_size_t, ctypes.c_uint32) * 2 + (ctypes.c_void_p,)
    peer.restype = ctypes.c_uint32
    return peer(first, len(first), p, second, len(second), q, answer), *answer
