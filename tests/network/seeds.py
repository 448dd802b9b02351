"""Inputs for the fuzz target to begin with: steps (fuzz.c) made of a run of three hosts. `tests/fuzz-host --seeds`
writes them."""

from . import datagrams, plan

KEY = bytes([7]) + bytes(15)
RUN = 1_790_000_000_000
STATION = 1


def step(which, p, data=b""):
    return bytes([which, p]) + len(data).to_bytes(2, "little") + data


def heard(frames, first, last):
    """Rounds in which station 1 gets the frames of the others."""
    for number in range(first, last + 1):
        for sender in (0, 2):
            yield step(1, sender, frames[number, sender])
        yield step(4, 0)


def inputs(frames, state, n):
    """Name -> input. `frames` are those of a run, (round, sender) -> bytes; `state` is a saved state."""
    begin = bytes([n])
    draw = plan.Plan("seeds", plan.Sizes(n, 1, 0)).draws("seeds")
    posts = [b"insert 7 100", b"drop 7", b"shift 12 -1500", b"2 99999999 2699999", b"9 0 0", b"insert",
             b"insert 7 100 1", b"2 1000000000 0"]
    yield "run", begin + b"".join(heard(frames, 1, 12))
    yield "posts", begin + b"".join(step(5, 0, post) + step(4, 0) for post in posts) + b"".join(heard(frames, 9, 10))
    yield "saved", begin + step(6, 0, state) + step(7, 0, state[40:40 + 64])
    early = [step(2, p, frames[1, 0]) for p in range(8)]
    yield "early-and-late", begin + b"".join(early) + step(4, 0) * 3 + b"".join(early)
    twice = step(1, 0, frames[1, 0]) * 2 + step(1, 0, frames[9, 0])
    yield "repeated", begin + twice + step(4, 0)
    yield "conflict", begin + step(1, 0, frames[4, 0]) + step(4, 0) + step(3, 2, with_body(frames[4, 0])) + step(4, 0)
    for number in range(12):
        sender, data = plan.hostile(draw, KEY, RUN, 1, STATION, n)
        yield f"hostile-{number}", begin + step(0, 255 if sender is None else sender, data) + step(4, 0)
    sealed = datagrams.seal(KEY, RUN, 1, 0, frames[1, 0])
    lengths = 0, 7, 8, 9, 16, 23, 24, 25, 43, 44, 45, 284, 285, 400, 4000
    yield "lengths", begin + b"".join(step(8, 0, (sealed + bytes(4000))[:length]) for length in lengths)
    lengths = 0, 1, 2, 1000, 131_072, 131_073, 2**32 - 1
    yield "cut-states", begin + b"".join(step(9, 36, length.to_bytes(4, "little")) for length in lengths)
    yield "changed-states", begin + b"".join(step(9, place, b"\1") for place in range(41)) + step(9, 0)
    rising = [step(3, 0, bytes([n, 0, 1, 0, 0, 0, 0, 0]) + bytes(8) + bytes([k % 3, 0, 0, 0])) for k in range(1, 9)]
    yield "no-frame", begin + step(4, 0).join(rising)
    for number in range(4):
        yield f"damaged-{number}", begin + step(0, 0, plan.damaged(draw, sealed)) + step(0, 0, sealed) + step(4, 0)


def with_body(frame):
    """The frame with another body in its first record."""
    return frame[:6] + bytes([3, 0, 9, 0, 0, 0, 0, 0, 0, 0]) + frame[16:]
