"""A5: a load that everyone can repeat, drawn from a seed (document 02)."""

from .bodies import INSERT
from .records import PLACES
from .refusals import BAD_NUMBER, BUFFER_SHORT, DONE
from .scripts import script_line

FACTOR = 1_664_525
ADDEND = 1_013_904_223
WORD = 2 ** 32
DIVISOR = 65_536
POSTS_EVERY = 8
MOST_ROUNDS = 999_999


def step(state):
    return (FACTOR * state + ADDEND) % WORD


def drawn(state):
    """The new state, and the draw."""
    state = step(state)
    return state, state // DIVISOR


def size_line(n):
    return script_line(b"N", (n,))


def round_lines(state, n):
    """The lines of the next round, and the state after it."""
    posts, masks = b"", []
    for station in range(n):
        state, draw = drawn(state)
        if draw % POSTS_EVERY == 0:
            posts += script_line(b"P", (station, INSERT, draw + 1, draw))
        state, mask = drawn(state)
        masks.append(mask)
    return posts + script_line(b"R", masks), state


def script_parts(seed, n, rounds):
    """A whole script: the `N` line, then round after round."""
    yield size_line(n)
    state = seed
    for _ in range(rounds):
        text, state = round_lines(state, n)
        yield text


def script(seed, n, rounds):
    return b"".join(script_parts(seed, n, rounds))


def generate(state, n, due, head, room):
    """Refusal, what is written and the next state, for a buffer of so many bytes."""
    if not 1 <= n <= PLACES or due > MOST_ROUNDS:
        return BAD_NUMBER, b"", state
    if head:
        text, after = size_line(n), state
    elif due:
        text, after = round_lines(state, n)
    else:
        text, after = b"", state
    if len(text) > room:
        return BUFFER_SHORT, b"", state
    return DONE, text, after


def call(state, n, due, head, buffer, places):
    """The call from C: its refusal, and what the buffer and the two places then hold."""
    refusal, text, after = generate(state, n, due, head != 0, len(buffer))
    if refusal == DONE and len(places) < 2:
        refusal = BUFFER_SHORT
    if refusal != DONE:
        return refusal, (buffer, places)
    return DONE, (list(text) + list(buffer[len(text):]), [after, len(text), *places[2:]])
