"""The server of ./relay screen: bad input gets a clear answer and never stops it.

What its calls answer is compared in test_screen_calls.py; the page is tried in tests/check-screen.
"""

import contextlib
import http.client
import json
import os
import pathlib
import re
import signal
import socket
import subprocess
import tempfile
import time
import unittest
from unittest import mock

from browser.served import screen
from model import malformed
from model.malformed import GOOD_ROUND, N2
from model.scripts import script_line
from relay_command import ROOT, example_of, run

from relay.screen import answers, server

EXAMPLE = ROOT / "examples" / "five-stations.plan"
PAGE = json.dumps({"plans": [{"name": "p", "n": 1, "log": ""}], "show": 0, "view": [1, 1], "questions": []}).encode()
SECONDS = 30


class Served(unittest.TestCase):
    def setUp(self):
        opened = contextlib.ExitStack()
        self.addCleanup(opened.close)
        self.folder = pathlib.Path(opened.enter_context(tempfile.TemporaryDirectory()))
        self.plan = self.folder / "evening.plan"
        self.plan.write_bytes(EXAMPLE.read_bytes())
        self.server = opened.enter_context(screen(self.plan))
        self.port = self.server.server_port

    def request(self, method, path, body=None, **headers):
        """Status, headers and body of the answer to one request on a connection of its own."""
        names = {name.replace("_", "-"): value for name, value in headers.items()}
        connection = http.client.HTTPConnection("127.0.0.1", self.port, timeout=SECONDS)
        with contextlib.closing(connection):
            connection.request(method, path, body, names)
            answer = connection.getresponse()
            return answer.status, answer.headers, answer.read()

    def fault(self, *request, **headers):
        status, _, body = self.request(*request, **headers)
        return status, json.loads(body)["fault"]

    def raw(self, data):
        """The answer to these bytes, after which the server closes the connection."""
        with socket.create_connection(("127.0.0.1", self.port), SECONDS) as one:
            one.sendall(data)
            return one.makefile("rb").read().decode()

    def assert_serves(self):
        """The server still answers, with the page and with a call."""
        self.assertEqual(self.request("GET", "/")[0], 200)
        self.assertEqual(self.request("POST", "/look", PAGE)[0], 200)


class Files(Served):
    def test_all(self):
        folder = ROOT / "tools" / "relay" / "screen"
        files = {path.name for path in folder.iterdir() if path.suffix in (".html", ".css", ".js")}
        self.assertEqual({name for name, _ in server.FILES.values()}, files)
        for path, (name, kind) in server.FILES.items():
            status, headers, body = self.request("GET", path)
            self.assertEqual((status, headers["Content-Type"], body), (200, kind, (folder / name).read_bytes()))
            self.assertIn("default-src 'none'", headers["Content-Security-Policy"])

    def test_no_network(self):
        """No file of the page names another host."""
        for name, _ in server.FILES.values():
            text = (ROOT / "tools" / "relay" / "screen" / name).read_text(encoding="utf-8")
            self.assertIsNone(re.search(r"https?:|//[a-z]+\.[a-z]+|@import", text), name)

    def test_others(self):
        for path in ("/server.py", "/../server.py", "/%2e%2e/server.py", "/screen/", "/etc/passwd", "/look"):
            self.assertEqual(self.fault("GET", path), (404, "there is no such page"))
        for path in ("/", "/plans", "/nothing"):
            self.assertEqual(self.fault("POST", path, b"{}"), (404, "there is no such call"))
        self.assertEqual(self.request("PUT", "/", b"x")[0], 501)
        self.assert_serves()

    def test_loopback_only(self):
        self.assertEqual(self.server.server_address[0], "127.0.0.1")
        with self.assertRaises(ConnectionRefusedError):
            socket.create_connection(("127.0.0.2", self.port), SECONDS)


class Senders(Served):
    def test_hosts(self):
        words = f"this server answers to 127.0.0.1:{self.port} only"
        for host in ("relay.example", f"relay.example:{self.port}", "127.0.0.1", "127.0.0.1:1", "localhost", "",
                     f"127.0.0.1:{self.port}.relay.example", f"127.0.0.2:{self.port}"):
            for request in (("GET", "/"), ("GET", "/plans"), ("POST", "/look", PAGE)):
                self.assertEqual(self.fault(*request, Host=host), (403, words), host)
        for host in (f"127.0.0.1:{self.port}", f"localhost:{self.port}"):
            self.assertEqual(self.request("GET", "/plans", Host=host)[0], 200)

    def test_no_host_or_two(self):
        host = f"Host: 127.0.0.1:{self.port}\r\n".encode()
        for lines in (b"", host + b"Host: relay.example\r\n", b"Host: relay.example\r\n" + host):
            self.assertIn("403", self.raw(b"GET / HTTP/1.1\r\nConnection: close\r\n" + lines + b"\r\n"))

    def test_origins(self):
        for origin in ("http://relay.example", "null", "http://127.0.0.1", f"https://127.0.0.1:{self.port}"):
            self.assertEqual(self.fault("POST", "/look", PAGE, Origin=origin),
                             (403, "this server answers to its own page only"))
        self.assertEqual(self.request("POST", "/look", PAGE, Origin=f"http://127.0.0.1:{self.port}")[0], 200)


class Damaged(Served):
    def test_read(self):
        """Each malformed plan is refused with its line, and the words are those of the other subcommands."""
        for name, script, _ in malformed.malformed_scripts():
            with self.subTest(name):
                status, words = self.fault("POST", "/read?name=late.plan", script)
                self.assertEqual(status, 400)
                self.assertRegex(words, r"^late\.plan, line \d+: .+$")
        script = N2 + GOOD_ROUND * 5 + b"R       02        1\n"
        self.assertEqual(self.fault("POST", "/read?name=late.plan", script),
                         (400, "late.plan, line 7: number in columns 2 to 10 has a leading zero"))

    def test_named(self):
        """A file is read again with each page, and what is wrong with it comes with its line."""
        self.plan.write_bytes(N2 + b"R        2\n")
        found = json.loads(self.request("GET", "/plans")[2])["plans"]
        words = "line 2: the line has 10 columns where R has 19: the letter and 2 numbers of nine columns"
        self.assertEqual(found, [{"name": str(self.plan), "fault": f"{self.plan}, {words}"}])
        self.plan.unlink()
        found = json.loads(self.request("GET", "/plans")[2])["plans"]
        self.assertEqual(found[0]["fault"], f"cannot read {self.plan}: No such file or directory")
        self.plan.write_bytes(N2)
        self.assertEqual(json.loads(self.request("GET", "/plans")[2])["plans"],
                         [{"name": str(self.plan), "n": 2, "log": ""}])

    def test_too_many_rounds(self):
        self.assertEqual(self.fault("POST", "/read?name=long", N2 + GOOD_ROUND * 2_049),
                         (400, "long: refused with 12: the plan has 2,049 rounds, and at most 2,048 are taken"))

    def test_requests(self):
        for body, words in ((b"", "the request is no JSON"), (b"{", "the request is no JSON"),
                            (b"\xff\xfe", "the request is no JSON"), (b"[" * 100_000, "the request is no JSON"),
                            (b"[]", "the request is no object of JSON"), (b"7", "the request is no object of JSON"),
                            (b"{}", "'plans' is a list")):
            for path in (*server.CALLS, *server.EXPORTS):
                self.assertEqual(self.fault("POST", path, body), (400, words), (path, body[:20]))
        self.assert_serves()

    def test_lines_of_http(self):
        host = f"Host: 127.0.0.1:{self.port}\r\n".encode()
        post = b"POST /look HTTP/1.1\r\n" + host
        strange = b"GET http://[/ HTTP/1.1\r\nConnection: close\r\n" + host + b"\r\n"
        for data, words in ((post + b"Transfer-Encoding: chunked\r\n\r\n0\r\n\r\n", "411"),
                            (post + b"Content-Length: -1\r\n\r\n", "400"),
                            (post + b"Content-Length: x\r\n\r\n", "400"),
                            (post + b"Content-Length: " + b"9" * 30 + b"\r\n\r\n", "400"),
                            (strange, "the request's address is malformed"),
                            (b"GET /" + b"x" * 70_000 + b" HTTP/1.1\r\n\r\n", "414"),
                            (b"GET / HTTP/1.1\r\n" + b"A: b\r\n" * 300 + b"\r\n", "431"),
                            (b"GET / HTTP/9.9\r\n\r\n", "505"), (b"nonsense\r\n\r\n", "400")):
            self.assertIn(words, self.raw(data), data[:60])
        self.assert_serves()


class Large(Served):
    def test_plan_of_100_mb(self):
        """Sent to the server: refused by its size, and the sender comes to read that."""
        line = script_line(b"R", [0] * 16)
        text = script_line(b"N", (16,)) + line * (100_000_000 // len(line))
        self.assertEqual(self.fault("POST", "/read?name=large", text),
                         (413, f"the request has {len(text):,} bytes, and at most 4,194,304 are read"))
        self.assert_serves()
        self.plan.write_bytes(text)
        words = f"{self.plan}: the plan has more than 4,194,304 bytes, which the screen takes at the most"
        self.assertEqual(json.loads(self.request("GET", "/plans")[2])["plans"][0]["fault"], words)
        began = time.monotonic()
        self.assertEqual(run("screen", self.plan), (1, "", f"relay screen: {words}\n"))
        self.assertLess(time.monotonic() - began, SECONDS)

    def test_million_questions(self):
        given = {"plans": [{"name": "p", "n": 2, "log": ""}], "show": 0, "view": [1, 1]}
        body = json.dumps(given | {"questions": [[0, 1, 1]] * 1_000_000}).encode()
        self.assertEqual(self.fault("POST", "/look", body)[0], 413)
        body = json.dumps(given | {"questions": [[0, 1, 1]] * 100_000}, separators=(",", ":")).encode()
        status, _, answer = self.request("POST", "/look", body)
        self.assertEqual((status, json.loads(answer)["question_fault"]),
                         (200, "refused with 18: 100000 questions, and at most 64 are answered at once"))
        self.assertEqual(self.fault("POST", "/answers.csv", body)[1],
                         "refused with 18: 100000 questions, and at most 64 are answered at once")
        self.assert_serves()


class Clients(Served):
    def test_second_client(self):
        """A client that has sent half of a request, and one that stays, keep no other waiting."""
        host = f"Host: 127.0.0.1:{self.port}\r\n".encode()
        half = b"POST /look HTTP/1.1\r\n" + host + b"Content-Length: 1000\r\n\r\n{"
        with socket.create_connection(("127.0.0.1", self.port), SECONDS) as slow:
            slow.sendall(half)
            stays = http.client.HTTPConnection("127.0.0.1", self.port, timeout=SECONDS)
            with contextlib.closing(stays):
                for _ in range(3):
                    stays.request("POST", "/look", PAGE)
                    first = json.loads(stays.getresponse().read())
                    second = json.loads(self.request("POST", "/look", PAGE)[2])
                    self.assertEqual(first | {"library_ms": 0}, second | {"library_ms": 0})
            self.assert_serves()

    def test_broken_off(self):
        """Clients that leave in the middle of a request or of an answer."""
        host = f"Host: 127.0.0.1:{self.port}\r\n".encode()
        for data in (b"", b"G", b"POST /look HTTP/1.1\r\n" + host + b"Content-Length: 99\r\n\r\n{",
                     b"GET /page.js HTTP/1.1\r\n" + host + b"\r\n"):
            one = socket.create_connection(("127.0.0.1", self.port), SECONDS)
            one.setsockopt(socket.SOL_SOCKET, socket.SO_LINGER, b"\1\0\0\0\0\0\0\0")     # leaves with a reset
            one.sendall(data)
            one.close()
        self.assert_serves()

    def test_silent_client_is_dropped(self):
        with mock.patch.object(server.Handler, "timeout", 0.2), \
                socket.create_connection(("127.0.0.1", self.port), SECONDS) as silent:
            self.assertEqual(silent.recv(1), b"")
        self.assert_serves()

    def test_failure_inside(self):
        """A fault of the server itself ends one request and not the server."""
        with mock.patch.dict(server.CALLS, {"/look": lambda given: 1 // 0}), \
                mock.patch("traceback.print_exc"):
            self.assertEqual(self.fault("POST", "/look", PAGE),
                             (500, "the server failed at this request; its standard error says where"))
        self.assert_serves()


class Command(unittest.TestCase):
    def test_serves_and_ends(self):
        """The command prints the address of the page, and ends when it is interrupted."""
        self.assertEqual(example_of(run("screen", "--help")[1]), ["./relay screen examples/five-stations.plan"])
        one = subprocess.Popen([ROOT / "relay", "screen", EXAMPLE], stdin=subprocess.DEVNULL, stdout=subprocess.PIPE,
                               text=True, preexec_fn=lambda: signal.signal(signal.SIGINT, signal.default_int_handler))
        with one:
            port = int(re.fullmatch(r"The planning screen is at http://127\.0\.0\.1:(\d+)/ \(Ctrl\+C ends it\)\n",
                                    one.stdout.readline())[1])
            with contextlib.closing(http.client.HTTPConnection("127.0.0.1", port, timeout=SECONDS)) as connection:
                connection.request("GET", "/plans")
                found = json.loads(connection.getresponse().read())["plans"]
            self.assertEqual([(plan["name"], plan["n"]) for plan in found], [(str(EXAMPLE), 5)])
            status, text, words = run("screen", EXAMPLE, "--port", str(port))
            self.assertEqual((status, text, words), (2, "", f"relay screen: cannot listen on 127.0.0.1, port {port}: "
                                                            "Address already in use\n"))
            one.send_signal(signal.SIGINT)
            self.assertEqual(one.wait(SECONDS), 128 + signal.SIGINT)

    def test_refused(self):
        words = "standard input, line 2: the line begins with 'x'; its letter is N, P or R"
        self.assertEqual(run("screen", "-", given=N2 + b"x\n"), (1, "", f"relay screen: {words}\n"))
        self.assertEqual(run("screen", "/nowhere"),
                         (2, "", "relay screen: cannot read /nowhere: No such file or directory\n"))
        self.assertEqual(run("screen", EXAMPLE, "-", given=N2)[:2], (1, ""))
        self.assertEqual(run("screen", EXAMPLE, "-", given=N2)[2],
                         f"relay screen: standard input is for 2 stations, but {EXAMPLE} for 5: "
                         "two plans are merged for one group\n")
        self.assertEqual(run("screen", EXAMPLE, "--port", "65536")[0], 2)

    def test_standard_input(self):
        """A plan that comes through a pipe is read once, and stays."""
        pipe, ours = os.pipe()
        os.write(ours, N2 + GOOD_ROUND)
        os.close(ours)
        kept = os.dup(0)
        try:
            os.dup2(pipe, 0)
            named = answers.Named(["-"])
        finally:
            os.dup2(kept, 0)
            os.close(kept)
            os.close(pipe)
        for _ in range(2):
            self.assertEqual(named.shown()["plans"], [{"name": "standard input", "n": 2, "log": "AgABAA=="}])


if __name__ == "__main__":
    unittest.main()
