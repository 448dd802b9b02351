"""Bodies, the kind table and channels (document 01, "Bodies, labels and records"; document 02, A9)."""

from typing import NamedTuple


class Body(NamedTuple):
    kind: int
    event: int
    argument: int
    channel: int = 0


class KindLimits(NamedTuple):
    event_least: int
    event_most: int
    argument_least: int
    argument_most: int


EMPTY_KIND, NEUTRAL_KIND, INSERT, DROP, SHIFT = range(5)

KINDS = {
    EMPTY_KIND: KindLimits(0, 0, 0, 0),
    NEUTRAL_KIND: KindLimits(0, 0, 0, 0),
    INSERT: KindLimits(1, 99_999_999, 0, 2_699_999),
    DROP: KindLimits(1, 99_999_999, 0, 0),
    SHIFT: KindLimits(1, 99_999_999, -90_000, 90_000),
}

EMPTY = Body(EMPTY_KIND, 0, 0)
NEUTRAL = Body(NEUTRAL_KIND, 0, 0)

EDITIONS = (0, 1)
CHANNELS = range(1, 201)  # of an edit, in edition 1


def body_in_limits(body):
    """The kind is in the table, and both numbers are inside its row."""
    row = KINDS.get(body.kind)
    return (row is not None
            and row.event_least <= body.event <= row.event_most
            and row.argument_least <= body.argument <= row.argument_most)


def channel_right(body, edition):
    """An edit has a channel in edition 1; what is no edit, and all in edition 0, has 0."""
    return body.channel in CHANNELS if edition == 1 and edit_kind(body) else body.channel == 0


def body_right(body, edition):
    """The limits of a body that is held or heard: those of its kind, and its channel."""
    return body_in_limits(body) and channel_right(body, edition)


def edit_kind(body):
    """Kinds 2 to 4 are edits, whatever their numbers."""
    return body.kind in (INSERT, DROP, SHIFT)


def is_edit(body):
    """An edit of the kind table, whatever its channel: else a post is refused with 4."""
    return edit_kind(body) and body_in_limits(body)
