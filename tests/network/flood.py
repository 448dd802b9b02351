"""A run by the clock while others send the hosts all that they can: noise, and datagrams that are nearly right."""

import os
import random
import signal

from .by_clock import ByClock
from .hosts import Fault
from .plan import hostile
from .rounds import KEY

LEAST = 1_000  # datagrams that each host must have dropped, or there was no flood


class Flood(ByClock):
    def prepare(self):
        super().prepare()
        self.child = os.fork()
        if self.child == 0:
            try:
                self.flood()
            finally:
                os._exit(0)

    def flood(self):
        """In a process of its own: from a stranger's address and from those of the stations. Under the group's key it
        sends frames of no round of this run: one of a round that is right would be a false frame, which nobody can
        tell from a true one."""
        draw, number = random.Random("flood"), self.sizes.rounds + 10
        made = [(k, *hostile(draw, KEY, self.run, number, k, self.sizes.n))
                for k in range(self.sizes.n) for _ in range(60)]
        noise = [draw.randbytes(draw.choice((0, 1, 24, 25, 100, 284, 285, 1400))) for _ in range(60)]
        while True:
            for receiver, sender, data in made:
                self.links.deliver(sender, receiver, data)
                self.links.deliver(None, receiver, draw.choice(noise))

    def go(self):
        try:
            super().go()
        finally:
            os.kill(self.child, signal.SIGKILL)
            os.waitpid(self.child, 0)

    def check(self):
        for host in self.hosts:
            told = host.status()
            dropped = sum(told[name] for name in ("stranger", "malformed", "unsealed", "other-run", "wrong-name",
                                                  "early"))
            if dropped < LEAST:
                raise Fault(f"station {host.station} dropped only {dropped} datagrams in a flood: {told}")
        return super().check()
