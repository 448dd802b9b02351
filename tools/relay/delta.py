"""Delta of a plan: within how many rounds news travels between any two stations.

Delta of a plan from a round on is the least number of rounds, 1 or more, such that after every round from there on
that leaves room for it every two stations have a relay that arrives within so many rounds. It is computed here from
the masks, and by no call of the library; the library's answers can be asked whether they agree.
"""

from . import library
from .faults import Wrong
from .hearings import hearings


def on_air_by(posted, waiting, delta, both_desks):
    """The round by which an edit is aired everywhere: one posted after so many rounds behind so many of its desk.

    That it is aired by then is proved for every list of posts and rounds (crates/delivery_spec); that Delta is right is
    tried against the model.
    """
    return posted + delta * (6 * waiting + 10 if both_desks else 3 * waiting + 7)


def least(n, log, first):
    """Delta from this round on, 0 for the whole plan; None where the plan has no room for it.

    Relays within 1, 2, 4 and more rounds are found until all are there; then the rounds between are halved. All rounds
    after which a relay begins are worked on at once: they are the bits of one number.
    """
    room = len(log) // n - first

    def holds(length, relays):
        """Whether after every round that leaves room all relays of this length are there."""
        wanted = (1 << max(0, room - length + 1)) - 1 << first
        return all(relays[a][b] & wanted == wanted for a in range(n) for b in range(n) if a != b)

    powers = [(1, one_round(n, log))]
    while not holds(*powers[-1]):
        length, relays = powers[-1]
        powers.append((2 * length, joined(relays, relays, length)))
    length, relays = powers[-2] if len(powers) > 1 else (0, None)
    for more, others in reversed(powers[:-2]):
        longer = length + more, joined(relays, others, length)
        if not holds(*longer):
            length, relays = longer
    return length + 1 if length + 1 <= room else None


def one_round(n, log):
    """From each station to each the rounds t, as bits, after which a relay arrives in round t + 1; -1 is all."""
    heard = hearings(n, log)
    return [[-1 if a == b else bits(heard[b][a]) for b in range(n)] for a in range(n)]


def bits(digits):
    """The number whose lowest bit is the first digit."""
    return int(digits[::-1] or b"0", 2)


def joined(first, second, length):
    """Relays of the first kind, which arrive within this length, and from there on those of the second kind."""
    stations = range(len(first))
    later = [[rounds >> length for rounds in row] for row in second]
    return [[-1 if a == b else united(first[a], [row[b] for row in later]) for b in stations] for a in stations]


def objection(n, log, first, found):
    """What the library's answers say against this Delta, in words; None where they agree.

    A relay after a round is asked for as the first broadcast of its sender in a plan that begins behind that round.
    """
    rounds = len(log) // n

    def slowest(t, length):
        """The pair of stations whose relay after round t comes last, or not at all, within the next rounds, and when."""
        worst = 0, None
        for page in pages(n):
            refusal, arrive = library.questions(n, log[n * t:n * (t + length)], page)
            if refusal:
                raise Wrong(f"refused with {refusal}")
            worst = max(worst, *((length + 1 if one is None else one, pair) for one, pair in zip(arrive, page)))
        return worst

    if found is None:
        none = first == rounds or slowest(first, rounds - first)[0] > rounds - first
        return None if none else f"after round {first} every two stations have a relay"
    late = [slowest(t, found) for t in range(first, rounds - found + 1)]
    for t, (when, pair) in enumerate(late, first):
        if when > found:
            return f"after round {t} no relay from {pair[0]} to {pair[1]} arrives within {found} rounds"
    if found == 1 or max(late)[0] == found or slowest(rounds - found + 1, found - 1)[0] == found:
        return None
    return "fewer rounds would do"


def pages(n):
    """Questions for the first broadcast, of every station to every other, a page each."""
    asked = [(a, b, 1) for a in range(n) for b in range(n) if a != b]
    return [asked[at:at + library.MOST_QUESTIONS] for at in range(0, len(asked), library.MOST_QUESTIONS)]


def united(there, onward):
    """The rounds after which some station is reached and leads on."""
    found = 0
    for one, other in zip(there, onward):
        found |= one & other
    return found
