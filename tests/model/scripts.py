"""Random lists of calls and scripts, each from its seed. For tests."""

import random
from typing import NamedTuple

from .bodies import CHANNELS, DROP, EMPTY, INSERT, KINDS, NEUTRAL, SHIFT, Body, edit_kind
from .bulletins import Bulletin
from .lines import FIELD_WIDTH, PostLine, RoundLine
from .queues import CAPACITY, DEFAULT_LIMIT
from .records import PLACES


# Writing scripts.

def field(number):
    return b"%*d" % (FIELD_WIDTH, number)


def script_line(letter, numbers):
    return letter + b"".join(field(number) for number in numbers) + b"\n"


def call_line(call):
    """The desk is named only where another than desk 0 posts or where there is a channel, which no script of document 01 has."""
    if isinstance(call, PostLine):
        channel = [call.body.channel] * (call.body.channel != 0)
        return script_line(b"P", (call.station, *call.body[:3], *[call.desk] * (call.desk != 0 or bool(channel)), *channel))
    if isinstance(call, Bulletin):
        return script_line(b"B", call)
    return script_line(b"R", call.masks)


def script_of(n, calls):
    return script_line(b"N", (n,)) + b"".join(call_line(call) for call in calls)


# Random lists of calls.

class Shape(NamedTuple):
    """What a random list of calls is like."""
    n: int
    rounds: int
    density: float     # the chance of each link in each round; ignored by the other link forms
    post_rate: float   # posts a round, on average, over the whole group
    links: str = "random"


LINK_FORMS = ("random", "ring", "star", "spells")


def random_edit(rng, event):
    """An edit inside its limits, often at one of them."""
    kind = rng.choice((INSERT, DROP, SHIFT))
    row = KINDS[kind]
    argument = rng.choice((row.argument_least, row.argument_most,
                           rng.randint(row.argument_least, row.argument_most)))
    return Body(kind, event, argument)


def refused_edit(rng):
    """A body that no post accepts."""
    row = KINDS[INSERT]
    return rng.choice((
        EMPTY, NEUTRAL, Body(5, 1, 0), Body(256 + INSERT, 1, 0), Body(999_999_999, 1, 0),
        Body(INSERT, 0, 0), Body(INSERT, row.event_most + 1, 0),
        Body(INSERT, 1, row.argument_most + 1), Body(INSERT, 1, -1),
        Body(DROP, 0, 0), Body(DROP, 1, 1), Body(DROP, 1, -1),
        Body(SHIFT, 1, KINDS[SHIFT].argument_least - 1),
        Body(SHIFT, 1, KINDS[SHIFT].argument_most + 1)))


def random_posts(rng, shape, events):
    """The posts before one round: mostly good ones, some refused ones, now and then a full queue."""
    posts = []
    for _ in range(int(shape.post_rate + rng.random())):
        choice = rng.random()
        if choice < 0.8:
            posts.append(PostLine(rng.randrange(shape.n), random_edit(rng, next(events))))
        elif choice < 0.9:
            posts.append(PostLine(rng.randrange(shape.n), refused_edit(rng)))
        elif choice < 0.99:
            beyond = max(shape.n, rng.choice((0, 16, 255, 256, 999_999_999)))
            posts.append(PostLine(beyond, random_edit(rng, next(events))))
        else:
            place = rng.randrange(shape.n)
            posts += [PostLine(place, random_edit(rng, next(events))) for _ in range(34)]
    return posts


def linked(rng, shape, number, p, j):
    """Whether p hears j in the round of this number."""
    if shape.links == "ring":        # everyone hears the next one only
        return j == (p + 1) % shape.n
    if shape.links == "star":        # only station 0 hears others, or is heard
        return (p == 0 or j == 0) and rng.random() < 0.7
    if shape.links == "spells":      # half the stations are cut off for five rounds at a time
        cut_off = number // 5 % 2
        return (p % 2 == j % 2 or not cut_off) and rng.random() < shape.density
    return rng.random() < shape.density


def random_masks(rng, shape, number):
    """A round's masks; the bits that no one reads are random too."""
    masks = []
    for p in range(shape.n):
        unread = rng.getrandbits(PLACES) & ~((1 << shape.n) - 1) | rng.getrandbits(1) << p
        heard = sum(1 << j for j in range(shape.n)
                    if j != p and linked(rng, shape, number, p, j))
        masks.append(unread | heard)
    return tuple(masks)


def random_calls(rng, shape):
    """Posts and rounds; the events of good edits all differ, so that no two are mixed up."""
    events = iter(range(1, 100_000_000))
    calls = []
    for number in range(1, shape.rounds + 1):
        calls += random_posts(rng, shape, events)
        calls.append(RoundLine(random_masks(rng, shape, number)))
    return calls + random_posts(rng, shape, events)


SIZES = tuple(range(1, 17)) + tuple(range(1, 9))  # small groups twice, for they run fast


def random_shape(seed):
    """The sizes in turn; sparse and dense links, few and many posts."""
    rng = random.Random(f"shape {seed}")
    return Shape(n=SIZES[seed % len(SIZES)],
                 rounds=rng.randint(6, 30),
                 density=rng.choice((0.03, 0.08, 0.15, 0.3, 0.6, 0.9, 1.0)),
                 post_rate=rng.choice((0.0, 0.5, 1.5, 4.0)),
                 links=rng.choice(("random",) * 3 + LINK_FORMS[1:]))


def seeded_calls(seed, shape=None):
    """The size and the calls that belong to a seed."""
    shape = shape or random_shape(seed)
    return shape.n, random_calls(random.Random(f"calls {seed}"), shape)


def seeded_desks(seed, shape=None):
    """The same with a desk for each post, now and then none that there is."""
    n, calls = seeded_calls(seed, shape)
    rng = random.Random(f"desks {seed}")
    lean = rng.choice((0.2, 0.5, 0.5, 0.8))   # how often desk 1 posts

    def with_desk(call):
        if not isinstance(call, PostLine):
            return call
        desk = int(rng.random() < lean)
        return call._replace(desk=desk if rng.random() < 0.97 else rng.choice((2, 3, 255, 256, 999_999_999)))
    return n, [with_desk(call) for call in calls]


def seeded_channels(seed, shape=None):
    """The same with a channel too, now and then none that there is."""
    n, calls = seeded_desks(seed, shape)
    rng = random.Random(f"channels {seed}")

    def with_channel(call):
        if not isinstance(call, PostLine):
            return call
        channel = rng.choice((1, 200, rng.randint(1, 200))) if rng.random() < 0.95 else rng.choice((0, 201, 255, 256, 257, 999_999_999))
        return call._replace(body=call.body._replace(channel=channel))
    return n, [with_channel(call) for call in calls]


def random_bulletin(rng, n):
    """Of few tags, so that an issuer comes to one again; now and then without a station or an event that there is."""
    row = KINDS[INSERT]
    issuer = rng.randrange(n) if rng.random() < 0.95 else max(n, rng.choice((0, 16, 255, 256, 999_999_999)))
    good = rng.choice((row.event_least, row.event_most, rng.randint(row.event_least, row.event_most)))
    event = good if rng.random() < 0.9 else rng.choice((row.event_least - 1, row.event_most + 1, 999_999_999))
    return Bulletin(issuer, rng.choice((0, 1, 2, 8, 10, 999_999_998, 999_999_999)), event)


def seeded_bulletins(seed, shape=None):
    """Desks and channels as above, and bulletins before some of the calls."""
    n, calls = seeded_channels(seed, shape)
    rng = random.Random(f"bulletins {seed}")
    rate = rng.choice((0.1, 0.4, 0.8))
    mixed = []
    for call in calls:
        mixed += [random_bulletin(rng, n) for _ in range(rng.choice((1, 1, 6)) if rng.random() < rate else 0)]
        mixed.append(call)
    return n, mixed


def seeded_limit(seed):
    """The limit of waiting edits that belongs to a seed, of all from 1 to 32; often the least, the default or the most."""
    rng = random.Random(f"limit {seed}")
    return rng.choice((1, DEFAULT_LIMIT, CAPACITY, rng.randint(1, CAPACITY)))


def seeded_edition(seed):
    """The edition that belongs to a seed: every second two have edition 1."""
    return seed // 2 % 2


def on_one_channel(calls, edition):
    """The same calls in an edition: in edition 1 all edits on the last channel, so that bodies that are equal stay so."""
    return [call._replace(body=call.body._replace(channel=CHANNELS[-1]))
            if isinstance(call, PostLine) and edition == 1 and edit_kind(call.body) else call for call in calls]


def seeded_script(seed, shape=None):
    return script_of(*seeded_calls(seed, shape))
