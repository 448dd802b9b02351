"""Whom a station hears in which rounds, as digits: that of round u, the first being round 1, is 1 where it hears."""

import sys

DIGITS = [bytes(ord("0") + (byte >> bit & 1) for byte in range(256)) for bit in range(8)]


def hearings(n, log):
    """For each station and each that it may hear the digits of all rounds; for itself none is 1."""
    return [[b"0" * len(halves[0]) if heard == hearer else digits(halves, heard) for heard in range(n)]
            for hearer, halves in ((hearer, halved(log[hearer::n])) for hearer in range(n))]


def halved(masks):
    """The low bytes of some masks, and the high ones."""
    data = masks.tobytes()
    low = sys.byteorder == "big"
    return data[low::2], data[not low::2]


def digits(halves, bit):
    """The digit of each mask that tells whether it has this bit."""
    return halves[bit // 8].translate(DIGITS[bit % 8])
