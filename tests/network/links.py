"""The sockets between the hosts. Each station has two addresses: one where its host listens, and a face, which the
others take for it. What is sent to the face of i from the host of j is a datagram from j to i; it goes on, if at all,
from the face of j, so that i sees it come from the address that its peers file has for j."""

import os
import socket

PORT = 7100
ROOM = 1 << 20


def network():
    """The first three numbers of addresses on loopback that no other process uses."""
    return f"127.{1 + os.getpid() // 250 % 250}.{os.getpid() % 250}"


class Links:
    def __init__(self, n):
        self.n, net = n, network()
        self.hosts = [(f"{net}.{1 + k}", PORT) for k in range(n)]
        self.numbers = {address: k for k, address in enumerate(self.hosts)}
        self.faces = [self.bound((f"{net}.{101 + k}", PORT)) for k in range(n)]
        self.stranger = self.bound((f"{net}.201", PORT))

    @staticmethod
    def bound(address):
        made = socket.socket(socket.AF_INET, socket.SOCK_DGRAM)
        made.setsockopt(socket.SOL_SOCKET, socket.SO_RCVBUF, ROOM)
        made.setblocking(False)
        made.bind(address)
        return made

    def peers(self, station, missing=()):
        """The text of a station's peers file."""
        lines = [f"{station} {self.hosts[station][0]} {PORT}   # this station"]
        lines += [f"{k} {face.getsockname()[0]} {PORT}" for k, face in enumerate(self.faces)
                  if k != station and k not in missing]
        return "\n".join(lines) + "\n"

    def arrived(self):
        """All that has come: (sender, receiver, bytes) each."""
        for receiver, face in enumerate(self.faces):
            while (came := received(face)) is not None:
                data, address = came
                if address in self.numbers:
                    yield self.numbers[address], receiver, data

    def deliver(self, sender, receiver, data):
        """Sends on, from the face of the sender; None is a stranger."""
        face = self.stranger if sender is None else self.faces[sender]
        try:
            face.sendto(data, self.hosts[receiver])
        except (ConnectionRefusedError, BlockingIOError):
            pass  # of a datagram before: its host is down

    def close(self):
        for face in [*self.faces, self.stranger]:
            face.close()


def received(face):
    while True:
        try:
            return face.recvfrom(65_536)
        except ConnectionRefusedError:
            continue
        except BlockingIOError:
            return None
