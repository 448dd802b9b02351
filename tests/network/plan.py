"""What is drawn from a seed. The same seed and sizes give the same plan."""

import random
from typing import NamedTuple

from . import datagrams


class Sizes(NamedTuple):
    n: int
    rounds: int
    loss: int           # of a hundred datagrams, how many are lost
    kills: int = 0
    hostile: int = 0    # datagrams of others, a round and station
    calm: bool = False  # few posts, all of them edits with small numbers: for a picture
    ring: bool = False  # each station is linked with the one before it and the one after it only


class Kill(NamedTuple):
    station: int
    round: int         # about when
    call: int          # at which watched call of that round
    way: int           # 0: before the call, 1: behind it, or in the middle of a write, 2: the call fails
    down: int          # for how many rounds it stays away; 0: it comes back in the round in which it died


EXTREMES = (0, 1, 2, 3, 4, 5, 999_999_999)
ARGUMENTS = (0, 1, -1, 90_000, 90_001, -90_000, -90_001, 2_699_999, 2_700_000, -99_999_999, 999_999_999)


class Plan:
    def __init__(self, seed, sizes):
        self.seed, self.sizes = seed, sizes
        self.kills = list(self.draw_kills(random.Random(f"{seed} kills")))

    def draws(self, *what):
        """A source of draws for one purpose: what one part draws does not move another."""
        return random.Random(f"{self.seed} {what}")

    def draw_kills(self, draw):
        """Spread over the run, but for its last rounds, in which everyone comes back. Nobody dies again at once."""
        sizes = self.sizes
        last = max(2, sizes.rounds - 10)
        free = dict.fromkeys(range(sizes.n), 1)
        for number in range(sizes.kills):
            at = 2 + (last - 2) * (2 * number + 1) // (2 * sizes.kills)
            station = draw.choice([k for k in free if free[k] <= at] or [None])
            if station is None:
                continue
            kill = Kill(station, at, draw.randrange(sizes.n + 6), draw.randrange(3), draw.choice((0, 1, 1, 2, 3, 7)))
            free[station] = at + kill.down + 3
            yield kill

    def linked(self, one, other):
        """Whether the peers files of two stations have each other."""
        return not self.sizes.ring or (one - other) % self.sizes.n in (1, self.sizes.n - 1)

    def posts(self, number, station):
        """What is posted at a station in a round, as (kind, event, argument)."""
        draw = self.draws("posts", number, station)
        if self.sizes.calm:
            return [(draw.choice((2, 3, 4)), 10 * number + station, 0)] if draw.random() < 0.15 else []
        if draw.random() < 0.02:  # more than can wait
            return [(2, 1 + k, 100 * number + k) for k in range(36)]
        return [self.post(draw) for _ in range(draw.choice((0, 0, 0, 0, 0, 1, 1, 2)))]

    @staticmethod
    def post(draw):
        if draw.random() < 0.15:
            return draw.choice(EXTREMES), draw.choice(EXTREMES), draw.choice(ARGUMENTS)
        kind = draw.choice((2, 2, 3, 4))
        argument = {2: draw.randrange(2_700_000), 3: 0, 4: draw.randrange(-90_000, 90_001)}[kind]
        return kind, draw.randrange(1, 100_000_000), argument

    def deliveries(self, number, sender, receiver, data):
        """What a link makes of a datagram: (rounds later, bytes) each."""
        draw = self.draws("link", number, sender, receiver)
        if draw.random() * 100 < self.sizes.loss:
            what = draw.choice(("lost", "lost", "late", "damaged"))
            if what == "late":
                return [(draw.randrange(1, 6), data)]
            return [(0, damaged(draw, data))] if what == "damaged" else []
        copies = [(0, data)] * (1 + (draw.random() < 0.1))
        return copies + [(0, damaged(draw, data))] * (draw.random() < 0.05)

    def hostile(self, key, run, number, receiver):
        """Datagrams that no station sent, as (station of the address or None, bytes)."""
        draw = self.draws("hostile", number, receiver)
        for _ in range(self.sizes.hostile):
            yield hostile(draw, key, run, number, receiver, self.sizes.n)


def damaged(draw, data):
    """Other bytes than these: some bits turned, cut, grown, or noise."""
    how = draw.randrange(4)
    if how == 0:
        bits = int.from_bytes(data, "little")
        for _ in range(draw.randrange(1, 5)):
            bits ^= 1 << draw.randrange(8 * len(data))
        made = bits.to_bytes(len(data), "little")
    elif how == 1:
        made = data[:draw.randrange(len(data))]
    elif how == 2:
        made = data + draw.randbytes(draw.choice((1, 4, 16, 300, 2000)))
    else:
        made = draw.randbytes(draw.randrange(datagrams.LONGEST + 40))
    return made if made != data else data + b"\0"


def hostile(draw, key, run, number, receiver, n):
    """A datagram that is well sealed, and wrong in one way or more; or not sealed at all."""
    other = draw.choice([k for k in range(n) if k != receiver] or [None])
    sender = 0 if other is None else other
    third = draw.choice([k for k in range(n) if k not in (receiver, other)] or [receiver])
    way = draw.randrange(11)
    frame = a_frame(n, sender)
    if way == 0:
        return None, datagrams.seal(key, run, number, sender, frame)                         # from a stranger's address
    if way == 1:
        return other, draw.randbytes(draw.randrange(2000))
    if way == 2:
        return other, datagrams.seal(bytes(15) + b"\1", run, number, sender, frame)           # with another key
    if way == 3:
        return other, datagrams.seal(key, run + 1, number, sender, frame)                     # of another run
    if way == 4:
        return other, datagrams.seal(key, run, number, receiver, a_frame(n, receiver))  # in the hearer's name
    if way == 5:
        return other, datagrams.seal(key, run, number, sender, a_frame(n % 16 + 1, sender))  # of another n
    if way == 6:
        late_or_early = draw.choice((0, number - 1, number + 4, number + 1000, 2**32 - 1))
        return other, datagrams.seal(key, run, late_or_early, sender, frame)
    if way == 7:
        return other, datagrams.seal(key, run, number, sender, a_frame(n, (sender + 1) % 16))
    if way == 10:
        return other, datagrams.seal(key, run, number, third, a_frame(n, third))        # in the name of a third
    if way == 8:
        return other, datagrams.seal(key, run, number, sender, draw.randbytes(draw.randrange(1, 261)))
    return other, datagrams.seal(key, run, number, sender, wrong_record(draw, frame))


def a_frame(n, sender):
    """A frame with the sender's record alone."""
    return bytes([n, sender, 1, 0, sender, 0, 0, 0]) + bytes(8) + (1 << 2 * min(sender, 15)).to_bytes(4, "little")


def wrong_record(draw, frame):
    """One limit of the record or of the head is broken."""
    at, value = draw.choice(((1, 16), (2, 0), (2, 2), (3, 1), (4, 200), (5, 255), (6, 5), (7, 1), (8, 1), (12, 1),
                             (16, 255), (19, 255)))
    return frame[:at] + bytes([value]) + frame[at + 1:]
