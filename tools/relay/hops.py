"""The relay that brings a broadcast, hop by hop.

The library answers in which round a broadcast comes and not by which way. The way is found here, and the answer
judges it: a relay that arrives in another round is an error, and is said to be one.
"""

from heapq import heappop, heappush
from typing import NamedTuple


class Hop(NamedTuple):
    round: int
    heard: int
    hearer: int


def relay(heard, sender, receiver, start):
    """The hops of a relay after the start that arrives at the receiver first; None where there is no relay.

    To the sender itself there are no hops.
    `heard` is what `hearings` gives. Stations are gone through in the order in which relays from the sender reach them;
    of two that reach a station in one round the one that came first counts.
    """
    came, coming = {}, [(start, sender, 0, None)]
    while coming:
        since, station, _, by = heappop(coming)
        if station in came:
            continue
        came[station] = Hop(since, by, station)
        if station == receiver:
            return way(came, receiver)
        for hearer, row in enumerate(heard):
            if hearer not in came and (place := row[station].find(b"1", since)) >= 0:
                heappush(coming, (place + 1, hearer, len(came), station))
    return None


def way(came, receiver):
    """The hops to the receiver, from the last hop to each station; the sender has one that nobody is heard in."""
    hops, hop = [], came[receiver]
    while hop.heard is not None:
        hops.append(hop)
        hop = came[hop.heard]
    return hops[::-1]


def fault(answer, start, hops):
    """What is wrong with a relay beside the library's answer, or None. Both the answer and the start may be never."""
    arrives = start if hops == [] else hops[-1].round if hops else None
    if arrives == answer:
        return None
    found = "no relay was found" if arrives is None else f"the relay that was found arrives in round {arrives}"
    return f"the library answers {'never' if answer is None else f'round {answer}'}, but {found}"
