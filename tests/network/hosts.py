"""The hosts as processes."""

import os
import pathlib
import signal
import socket
import subprocess


class Fault(Exception):
    """Something that must not be; the text says what."""


class Host:
    """One station's host, which may die and begin again."""

    def __init__(self, program, folder, station, options, environment=None):
        self.program, self.station, self.options = program, station, options
        self.environment = environment or {}
        self.folder = pathlib.Path(folder)
        self.process = self.beat_socket = None
        self.begun = 0

    def file(self, ending):
        return self.folder / f"{self.station}.{ending}"

    def start(self, beat=True, **environment):
        """Begins, fresh for the first time. With `beat`, the test tells it the round."""
        words = [self.program, "--station", str(self.station), *self.options,
                 "--peers", self.file("peers"), "--state", self.file("state"), "--report", self.file("report")]
        if self.begun == 0:
            words.append("--fresh")
        self.begun += 1
        ends = socket.socketpair() if beat else ()
        if beat:
            self.beat_socket, given = ends
            words += ["--beat", str(given.fileno())]
        with open(self.file("out"), "ab") as out, open(self.file("err"), "ab") as err:
            self.process = subprocess.Popen(
                words, stdin=subprocess.PIPE, stdout=out, stderr=err, bufsize=0,
                pass_fds=[given.fileno()] if beat else [], env={**os.environ, **self.environment, **environment})
        if beat:
            given.close()

    @property
    def alive(self):
        return self.process is not None and self.process.poll() is None

    def beat(self, number):
        try:
            self.beat_socket.sendall(b"%d\n" % number)
        except (BrokenPipeError, ConnectionResetError):
            pass  # it died; whoever waits for it will see

    def told(self):
        """The rounds whose frames it has sent since, or None once it is gone."""
        try:
            data = self.beat_socket.recv(4096)
        except ConnectionResetError:
            data = b""
        return [int(line) for line in data.split()] or None

    def post(self, posts):
        try:
            self.process.stdin.write(b"".join(b"%d %d %d\n" % post for post in posts))
        except BrokenPipeError:
            pass

    def kill(self):
        self.process.send_signal(signal.SIGKILL)

    def gone(self, seconds=60):
        """Waits for its end, and gives its status."""
        try:
            status = self.process.wait(seconds)
        except subprocess.TimeoutExpired:
            raise Fault(f"station {self.station} does not end") from None
        self.process.stdin.close()
        if self.beat_socket is not None:
            self.beat_socket.close()
        self.process = self.beat_socket = None
        return status

    def said(self):
        """The last words on standard error."""
        return self.file("err").read_text(encoding="utf-8", errors="replace")[-2000:]

    def status(self):
        """What its last status line tells: name -> number."""
        lines = [line for line in self.said().splitlines() if " done=" in line]
        if not lines:
            raise Fault(f"station {self.station} tells no status: {self.said()}")
        return {name: int(value) for name, _, value in (word.partition("=") for word in lines[-1].split()[2:])}
