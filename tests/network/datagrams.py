"""A datagram, and what becomes of one at a host (docs/HOST.md, "What comes in")."""

from typing import NamedTuple

from model.frames import check_frame
from model.refusals import BAD_FRAME_ADDRESS

from .siphash import siphash

STAMP = 24
LONGEST = STAMP + 260
ROUNDS_KEPT = 4
EDITION = 0
FATES = ("kept", "stranger", "malformed", "unsealed", "other-run", "wrong-name", "late", "early", "refused", "repeated",
         "two-faced")


class Stamp(NamedTuple):
    run: int
    round: int
    sender: int
    frame: bytes


def seal(key, run, number, sender, frame):
    rest = run.to_bytes(8, "little") + number.to_bytes(4, "little") + bytes([sender, 0, 0, 0]) + frame
    return siphash(key, rest).to_bytes(8, "little") + rest


def opened(key, data):
    """The stamp, or the fate of what has none."""
    if not STAMP < len(data) <= LONGEST:
        return "malformed"
    if siphash(key, data[8:]) != int.from_bytes(data[:8], "little"):
        return "unsealed"
    if data[21:24] != bytes(3):
        return "malformed"
    return Stamp(int.from_bytes(data[8:16], "little"), int.from_bytes(data[16:20], "little"), data[20], data[24:])


def other_group(frame, n):
    """What is told apart of frames that are refused with 6."""
    return ["other-n"] * (frame[0] != n) + ["other-edition"] * (frame[3] != EDITION)


class Inbox:
    """What a host keeps and counts; a new one whenever the host begins."""

    def __init__(self, key, run, n, own):
        self.key, self.run, self.n, self.own = key, run, n, own
        self.open, self.kept, self.counts = 1, {}, dict.fromkeys(FATES, 0)
        self.last_heard = {}  # station -> round

    def take(self, peer, data):
        """The fate of a datagram from the address of station `peer`, or of nobody (None)."""
        fate = self.fate(peer, data)
        if isinstance(fate, int):
            self.count(f"refused-{fate}")
            for name in other_group(data[STAMP:], self.n) if fate == BAD_FRAME_ADDRESS else ():
                self.count(name)
            fate = "refused"
        self.count(fate)
        return fate

    def count(self, name):
        self.counts[name] = self.counts.get(name, 0) + 1

    def fate(self, peer, data):
        """A name of a fate, or the number of a refusal."""
        stamp = "stranger" if peer is None else opened(self.key, data)
        if isinstance(stamp, str):
            return stamp
        if stamp.run != self.run:
            return "other-run"
        if stamp.sender != peer:
            return "wrong-name"
        if not self.open <= stamp.round < self.open + ROUNDS_KEPT:
            return "late" if stamp.round < self.open else "early"
        refusal = check_frame(stamp.frame, self.n, self.own)
        if refusal:
            return refusal
        if stamp.frame[1] != peer:
            return "wrong-name"
        return self.keep((stamp.round, peer), stamp.frame)

    def keep(self, place, frame):
        if place not in self.kept:
            self.kept[place] = frame
            return "kept"
        return "repeated" if self.kept[place] == frame else "two-faced"

    def mask(self):
        """Whom the host hears in its open round."""
        return sum(1 << sender for number, sender in self.kept if number == self.open)

    def close(self):
        self.last_heard |= {sender: number for number, sender in self.kept if number == self.open}
        self.kept = {place: frame for place, frame in self.kept.items() if place[0] > self.open}
        self.open += 1
