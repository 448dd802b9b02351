"""The server of the planning screen: the page, its files and its calls, for this machine alone.

It listens on 127.0.0.1 and answers only requests that name it so: a page from elsewhere that has its own name point
here is turned away. It keeps no plan between two requests, so any number of pages can be open.
"""

import http.server
import json
import pathlib
import sys
import traceback
import urllib.parse

from ..faults import Missing, Wrong
from . import answers

FOLDER = pathlib.Path(__file__).parent
HOME = "127.0.0.1"
LARGEST_BODY = 4 << 20      # bytes of a request
MOST_PASSED_OVER = 1 << 30  # bytes of a request that is too large, so that its sender comes to hear the answer
PART = 1 << 16
PATIENCE = 20               # seconds that a sender may be silent

JSON, TEXT = "application/json", "text/plain; charset=utf-8"
FILES = {
    "/": ("page.html", "text/html; charset=utf-8"),
    "/style.css": ("style.css", "text/css; charset=utf-8"),
    **{f"/{name}.js": (f"{name}.js", "text/javascript; charset=utf-8")
       for name in ("calls", "delta", "exports", "input", "legend", "page", "picture", "plan", "state", "tables")},
}
CALLS = {"/look": answers.look, "/delta": answers.delta_of, "/delta-check": answers.delta_check}
EXPORTS = {
    "/script": (answers.script, TEXT),
    "/picture": (answers.picture, "image/svg+xml; charset=utf-8"),
    "/forecast.csv": (answers.forecast_values, "text/csv; charset=utf-8"),
    "/answers.csv": (answers.answer_values, "text/csv; charset=utf-8"),
}
HEADERS = {
    "Cache-Control": "no-store",
    "Content-Security-Policy": "default-src 'none'; script-src 'self'; style-src 'self'; img-src 'self' data:; "
                               "connect-src 'self'; base-uri 'none'; form-action 'none'; frame-ancestors 'none'",
    "Referrer-Policy": "no-referrer",
    "X-Content-Type-Options": "nosniff",
}


class Refusal(Exception):
    """A request that is turned away, with the status of HTTP and words."""

    def __init__(self, status, words):
        super().__init__(words)
        self.status = status


class Handler(http.server.BaseHTTPRequestHandler):
    protocol_version = "HTTP/1.1"
    disable_nagle_algorithm = True
    timeout = PATIENCE
    wbufsize = -1
    left = 0            # bytes of the request's body that are not yet read

    def do_GET(self):
        self.reply(self.got)

    def do_POST(self):
        self.reply(self.posted)

    def reply(self, find):
        """Sends what is found, or what is wrong in words."""
        try:
            self.left = self.length()
            self.check_sender()
            status, (kind, body) = 200, find()
        except Refusal as wrong:
            status, (kind, body) = wrong.status, fault(wrong)
        except (Wrong, Missing) as wrong:
            status, (kind, body) = 400, fault(wrong)
        except (ConnectionError, TimeoutError):
            self.close_connection = True
            return
        except Exception:       # the server goes on, whatever a request does
            traceback.print_exc()
            status, (kind, body) = 500, fault("the server failed at this request; its standard error says where")
        self.pass_over()
        self.send(status, kind, body)

    def length(self):
        """The length of the request's body."""
        if "Transfer-Encoding" in self.headers:
            self.close_connection = True
            raise Refusal(411, "a request says its length")
        text = self.headers.get("Content-Length", "0")
        if not text.isascii() or not text.isdigit() or len(text) > 18:
            self.close_connection = True
            raise Refusal(400, "the length of the request is no number")
        return int(text)

    def check_sender(self):
        """Turns away what was meant for another host, or comes from a page of another."""
        names = {f"{name}:{self.server.server_port}" for name in (HOME, "localhost")}
        if self.headers.get_all("Host") is None or set(self.headers.get_all("Host")) - names:
            raise Refusal(403, f"this server answers to {HOME}:{self.server.server_port} only")
        origin = self.headers.get("Origin")
        if origin is not None and origin.removeprefix("http://") not in names:
            raise Refusal(403, "this server answers to its own page only")

    def body(self):
        if self.left > LARGEST_BODY:
            raise Refusal(413, f"the request has {self.left:,} bytes, and at most {LARGEST_BODY:,} are read")
        data = self.rfile.read(self.left)
        self.left = 0
        return data

    def pass_over(self):
        """Reads the rest of the body and forgets it, so that the sender comes to read the answer."""
        rest = min(self.left, MOST_PASSED_OVER)
        self.close_connection |= self.left > rest
        try:
            while rest > 0 and (part := self.rfile.read(min(PART, rest))):
                rest -= len(part)
        except (ConnectionError, TimeoutError):
            self.close_connection = True
        self.left = 0

    def place(self):
        """What is asked for."""
        try:
            return urllib.parse.urlsplit(self.path)
        except ValueError:
            raise Refusal(400, "the request's address is malformed") from None

    def got(self):
        path = self.place().path
        if path == "/plans":
            return JSON, encoded(self.server.named.shown())
        if path in FILES:
            name, kind = FILES[path]
            return kind, (FOLDER / name).read_bytes()
        raise Refusal(404, "there is no such page")

    def posted(self):
        place = self.place()
        if place.path == "/read":
            name = urllib.parse.parse_qs(place.query).get("name", ["the plan"])[0][:answers.LONGEST_NAME]
            return JSON, encoded(answers.plan_for_page(answers.read(name, [self.body()])))
        if place.path in CALLS:
            return JSON, encoded(CALLS[place.path](self.given()))
        if place.path in EXPORTS:
            export, kind = EXPORTS[place.path]
            return kind, export(self.given()).encode()
        raise Refusal(404, "there is no such call")

    def given(self):
        """The JSON of a call, which is an object."""
        try:
            given = json.loads(self.body())
        except (ValueError, RecursionError):
            raise Refusal(400, "the request is no JSON") from None
        if not isinstance(given, dict):
            raise Refusal(400, "the request is no object of JSON")
        return given

    def send(self, status, kind, body):
        self.send_response(status)
        for name, value in {"Content-Type": kind, "Content-Length": str(len(body)), **HEADERS}.items():
            self.send_header(name, value)
        if self.close_connection:
            self.send_header("Connection", "close")
        self.end_headers()
        self.wfile.write(body)

    def log_message(self, *_):
        """Says nothing of single requests."""


class Server(http.server.ThreadingHTTPServer):
    daemon_threads = True
    request_queue_size = 64

    def __init__(self, named, port):
        super().__init__((HOME, port), Handler)
        self.named = named

    def handle_error(self, request, client_address):
        """A connection that breaks off is no error of the server."""
        if not isinstance(sys.exc_info()[1], (ConnectionError, TimeoutError)):
            super().handle_error(request, client_address)

    @property
    def address(self):
        return f"http://{HOME}:{self.server_port}/"


def encoded(answer):
    return json.dumps(answer, separators=(",", ":")).encode()


def fault(words):
    return JSON, encoded({"fault": str(words)})


def serve(named, port):
    """Serves the page until it is interrupted."""
    try:
        server = Server(named, port)
    except OSError as wrong:
        raise Missing(f"cannot listen on {HOME}, port {port}: {wrong.strerror}") from None
    with server:
        print(f"The planning screen is at {server.address} (Ctrl+C ends it)", flush=True)
        server.serve_forever()
