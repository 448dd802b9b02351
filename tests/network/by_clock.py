"""A run by the system's clock: datagrams are lost, damaged and delayed as they come, and hosts are killed at any time.
What each host hears depends on the machine, so only what it told is compared: the reports of all are one listing."""

import heapq
import select
import time

from . import record
from .hosts import Fault, Host
from .links import Links
from .rounds import KEY

AHEAD = 1.0    # seconds from the start of the hosts to round 1
PATIENCE = 60  # seconds after the last round in which all hosts end


class ByClock:
    def __init__(self, program, plan, folder, round_ms):
        self.plan, self.sizes, self.round_ms = plan, plan.sizes, round_ms
        self.links, self.draw = Links(plan.sizes.n), plan.draws("by clock")
        (folder / "key").write_text(KEY.hex() + "\n", encoding="ascii")
        self.begin = time.time() + AHEAD
        self.run = int(self.begin * 1000)
        options = ["--n", str(self.sizes.n), "--epoch-ms", str(self.run), "--round-ms", str(round_ms),
                   "--rounds", str(self.sizes.rounds), "--key", folder / "key"]
        self.hosts = [Host(program, folder, k, options) for k in range(self.sizes.n)]
        self.events, self.number = [], 0  # events: (time, number, what, of what)
        self.away = []                   # of each death: station, first and last round in which it was away

    def at(self, when, what, *of):
        self.number += 1
        heapq.heappush(self.events, (when, self.number, what, of))

    def round_time(self, number):
        return self.begin + (number - 1 + self.draw.random()) * self.round_ms / 1000

    def prepare(self):
        for k, host in enumerate(self.hosts):
            host.file("peers").write_text(self.links.peers(k), encoding="ascii")
            host.start(beat=False)
            for number in range(1, self.sizes.rounds + 1):
                posts = self.plan.posts(number, k)
                if posts:
                    self.at(self.round_time(number), self.post, host, posts)
        for kill in self.plan.kills:
            when = self.round_time(kill.round)
            self.at(when, self.kill, self.hosts[kill.station])
            self.at(when + (0.2 + kill.down) * self.round_ms / 1000, self.restart, self.hosts[kill.station])

    def post(self, host, posts):
        if host.alive:
            host.post(posts)

    def kill(self, host):
        if host.alive and host.file("state").exists():
            host.kill()
            host.gone()
            self.away.append((host.station, self.now() + 1, self.now()))

    def restart(self, host):
        if host.process is None:
            self.away = [(k, first, self.now() - 1 if k == host.station and last < first else last)
                         for k, first, last in self.away]
            host.start(beat=False)

    def now(self):
        """The round that is open."""
        return min(self.sizes.rounds, int((time.time() - self.begin) * 1000 / self.round_ms) + 1)

    def carry(self):
        for sender, receiver, data in self.links.arrived():
            number = self.draw.randrange(1 << 30)
            for later, made in self.plan.deliveries(number, sender, receiver, data):
                delay = self.draw.random() * 0.1 + later
                self.at(time.time() + delay * self.round_ms / 1000, self.links.deliver, sender, receiver, made)

    def go(self):
        last = self.begin + self.sizes.rounds * self.round_ms / 1000 + PATIENCE
        try:
            self.prepare()
            while any(host.alive for host in self.hosts) or any(event[2] == self.restart for event in self.events):
                if time.time() > last:
                    raise Fault("the hosts do not end")
                self.step()
            for host in self.hosts:
                self.finish(host)
        finally:
            for host in self.hosts:
                if host.alive:
                    host.kill()
                    host.gone()
            self.links.close()

    def step(self):
        select.select(self.links.faces, [], [], 0.005)
        self.carry()
        while self.events and self.events[0][0] <= time.time():
            _, _, what, of = heapq.heappop(self.events)
            what(*of)

    def finish(self, host):
        if host.process is None:
            host.start(beat=False)
        status = host.gone()
        if status != 0:
            raise Fault(f"station {host.station} ended with status {status}: {host.said()}")

    def check(self):
        found = record.reports(self.hosts, self.sizes.rounds)
        for host in self.hosts:
            record.check_output(host)
        return record.compare(found)
