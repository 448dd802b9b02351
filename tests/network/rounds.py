"""A run whose rounds the test tells. A datagram on loopback is with its receiver once it is sent, so what each host
hears, counts and tells is known beforehand, however slow the machine is; only where a host died it is one of two."""

import select

from . import datagrams, record
from .hosts import Fault, Host
from .links import Links

RUN = 1_790_000_000_000
KEY = bytes(range(16))
CALLS_AT_START = 5   # watched calls of a host before its first round, about
CALLS_A_ROUND = 6    # and in each round, beside one a peer
SECONDS = 120        # in which a host has sent its frame, on a machine that does other work


class Rounds:
    def __init__(self, program, plan, folder, shim=None):
        self.plan, self.sizes, self.folder = plan, plan.sizes, folder
        self.links = Links(self.sizes.n)
        (folder / "key").write_text(KEY.hex() + "\n", encoding="ascii")
        options = ["--n", str(self.sizes.n), "--epoch-ms", str(RUN), "--round-ms", "1", "--key", folder / "key",
                   "--rounds", str(self.sizes.rounds)]
        environment = {"LD_PRELOAD": str(shim)} if shim else {}
        self.hosts = [Host(program, folder, k, options, environment) for k in range(self.sizes.n)]
        self.inboxes = [None] * self.sizes.n
        self.kills = {k: [kill for kill in plan.kills if kill.station == k] for k in range(self.sizes.n)}
        self.back = dict.fromkeys(range(self.sizes.n), 1)  # station -> the round in which it begins (again)
        self.masks = [{} for _ in range(self.sizes.n)]     # of each station: round -> the masks that it may report
        self.posted = [[] for _ in range(self.sizes.n)]
        self.frames, self.held = {}, []
        self.away = []  # of each death: station, first and last round in which it was away

    # One host.

    def begin(self, k, number):
        host, environment = self.hosts[k], {}
        missing = [other for other in range(self.sizes.n) if not self.plan.linked(k, other)]
        host.file("peers").write_text(self.links.peers(k, missing), encoding="ascii")
        if self.kills[k]:
            kill = self.kills[k][0]
            calls = max(0, kill.round - number) * (CALLS_A_ROUND + self.sizes.n) + CALLS_AT_START + kill.call + 1
            environment = {"RELAY_KILL_CALL": str(calls), "RELAY_KILL_AFTER": str(kill.way)}
        host.start(**environment)
        self.inboxes[k] = datagrams.Inbox(KEY, RUN, self.sizes.n, k)
        self.inboxes[k].open = number
        self.back[k] = None
        host.beat(number)

    def died(self, k, number):
        """After it was told that round `number` is open. It may have closed the round before, or not."""
        host = self.hosts[k]
        self.check_death(k, host.gone(), number)
        self.masks[k].setdefault(number - 1, set()).add(0)
        self.back[k] = number + self.kills[k].pop(0).down
        self.away.append((k, number, self.back[k] - 1))

    def check_death(self, k, status, number):
        """A host that was killed, or whose disk or neighbour failed: then it says so and ends with 1."""
        may = {0: -9, 1: -9, 2: 1}[self.kills[k][0].way] if self.kills[k] else 0
        if status != may:
            raise Fault(f"station {k} ended in round {number} with status {status}: {self.hosts[k].said()}")

    # A step of the run: some hosts are told the round, and what they send is carried.

    def tell(self, stations, number):
        """The hosts close the round before, and send their frames of this one."""
        for k in stations:
            if self.back[k] is None:
                self.masks[k][number - 1] = {self.inboxes[k].mask()}
                self.inboxes[k].close()
                self.hosts[k].beat(number)
            elif self.back[k] <= number:
                self.begin(k, number)
        due = {k for k in stations if self.back[k] is None}
        while due:
            for k in self.ready(due):
                told = self.hosts[k].told()
                if told is None:
                    self.died(k, number)
                    if self.back[k] <= number:
                        self.begin(k, number)
                    else:
                        due.discard(k)
                elif number in told:
                    due.discard(k)

    def ready(self, stations):
        sockets = {self.hosts[k].beat_socket: k for k in stations}
        found, _, _ = select.select(list(sockets), [], [], SECONDS)
        if not found:
            raise Fault(f"stations {sorted(stations)} do nothing")
        return [sockets[one] for one in found]

    def carry(self, number):
        """What was sent goes through the links; what is due of earlier rounds, and what others send, comes too."""
        going = []
        for sender, receiver, data in self.links.arrived():
            self.check_sent(sender, number, data)
            for later, made in self.plan.deliveries(number, sender, receiver, data):
                if later:
                    self.held.append((number + later, sender, receiver, made))
                else:
                    going.append((sender, receiver, made))
        going += [one[1:] for one in self.held if one[0] == number]
        self.held = [one for one in self.held if one[0] > number]
        for k in range(self.sizes.n):
            going += [(sender, k, data) for sender, data in self.plan.hostile(KEY, RUN, number, k)]
        self.plan.draws("order", number).shuffle(going)
        for sender, receiver, data in going:
            self.deliver(sender, receiver, data)

    def deliver(self, sender, receiver, data):
        """To a host that lives. A station without a link is a stranger there."""
        if self.back[receiver] is None:
            self.links.deliver(sender, receiver, data)
            peer = sender if sender is not None and self.plan.linked(sender, receiver) else None
            self.inboxes[receiver].take(peer, data)

    def check_sent(self, sender, number, data):
        """A host sends one frame a round, the same to all and also when it has died meanwhile."""
        stamp = datagrams.opened(KEY, data)
        if isinstance(stamp, str) or stamp[:3] != (RUN, number, sender):
            raise Fault(f"station {sender} sent in round {number}: {stamp if isinstance(stamp, str) else stamp[:3]}")
        if self.frames.setdefault((number, sender), stamp.frame) != stamp.frame:
            raise Fault(f"station {sender} sent two frames of round {number}")

    def post(self, number):
        for k, host in enumerate(self.hosts):
            posts = self.plan.posts(number, k)
            if posts and self.back[k] is None:
                self.posted[k] += posts
                host.post(posts)

    def round(self, number):
        """In some rounds some hosts are slow: the frames of this round come while the round before is open there."""
        draw = self.plan.draws("slow", number)
        slow = [k for k in range(self.sizes.n) if number > 1 and draw.random() < 0.3] if draw.random() < 0.25 else []
        self.tell([k for k in range(self.sizes.n) if k not in slow], number)
        if slow:
            self.carry_early(number)
            self.tell(slow, number)
        self.post(number)
        self.carry(number)

    def carry_early(self, number):
        """What the quick ones have sent comes to the slow ones now, and to the quick ones too."""
        for sender, receiver, data in self.links.arrived():
            self.check_sent(sender, number, data)
            for later, made in self.plan.deliveries(number, sender, receiver, data):
                if later:
                    self.held.append((number + later, sender, receiver, made))
                else:
                    self.deliver(sender, receiver, made)

    def finish(self):
        """All come back, close the last round and end."""
        number = self.sizes.rounds + 1
        for k, host in enumerate(self.hosts):
            if self.back[k] is None:
                self.masks[k][number - 1] = {self.inboxes[k].mask()}
                self.inboxes[k].close()
                host.beat(number)
            else:
                self.begin(k, number)
            while (status := host.gone()) != 0:
                self.check_death(k, status, number)
                self.masks[k].setdefault(number - 1, set()).add(0)
                self.away.append((k, number, number - 1))
                self.kills[k].pop(0)
                self.begin(k, number)

    def go(self):
        try:
            for number in range(1, self.sizes.rounds + 1):
                self.round(number)
            self.finish()
        finally:
            for host in self.hosts:
                if host.alive:
                    host.kill()
                    host.gone()
            self.links.close()

    # What is compared.

    def check_masks(self, found):
        for k, report in enumerate(found):
            for number, mask in enumerate(report.masks, 1):
                may = self.masks[k].get(number, {0})
                if mask not in may:
                    raise Fault(f"station {k} heard {mask:b} in round {number}; what came to it is "
                                + " or ".join(f"{one:b}" for one in may))

    def check_counts(self):
        """What the hosts count of each fate since they last began."""
        for host, inbox in zip(self.hosts, self.inboxes):
            told = host.status()
            for name, count in inbox.counts.items():
                if told.get(name, 0) != count:
                    raise Fault(f"station {host.station} counts {told.get(name, 0)} {name}, but there were {count}")
            last = {k: told[f"last-{k}"] for k in range(self.sizes.n) if k != host.station}
            if last != inbox.last_heard | {k: 0 for k in last if k not in inbox.last_heard}:
                raise Fault(f"station {host.station} heard the others last in rounds {last}, not {inbox.last_heard}")

    def check_posts(self, found):
        """A host that lived through has every post once and in order; one that died may have lost some, but in its
        report there is no other."""
        for k, report in enumerate(found):
            posts = [tuple(int(line[at:at + 9]) for at in (10, 19, 28)) for done in report.posts for line in done]
            rest = iter(self.posted[k])
            if not all(post in rest for post in posts):
                raise Fault(f"station {k} reports a post that was not made, or not there")
            if self.hosts[k].begun == 1 and len(posts) != len(self.posted[k]):
                raise Fault(f"station {k} reports {len(posts)} of {len(self.posted[k])} posts")

    def check(self):
        """Everything that must hold of the run; gives its script and its listing."""
        found = record.reports(self.hosts, self.sizes.rounds)
        self.check_masks(found)
        self.check_posts(found)
        self.check_counts()
        for host in self.hosts:
            record.check_output(host)
        return record.compare(found)
