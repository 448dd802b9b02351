"""How far long work is: a line on the terminal, written over again and again, and gone when the work is done."""

import contextlib
import sys
import threading
import time

FIRST_SHOWN = 1.0   # seconds
SHOWN_AGAIN = 0.2


def on_a_terminal(beside_output):
    """Whether to show it. Output that runs over the same terminal is progress enough."""
    if sys.stderr is None or not sys.stderr.isatty():
        return False
    return not (beside_output and sys.stdout.isatty())


class Line:
    """The line; it first comes after a second."""

    def __init__(self, beside_output=True):
        self.width, self.lock = 0, threading.RLock()
        self.due = time.monotonic() + FIRST_SHOWN if on_a_terminal(beside_output) else float("inf")

    def show(self, words):
        """Shows what a function says, where it is time."""
        if time.monotonic() >= self.due:
            self.due = time.monotonic() + SHOWN_AGAIN
            self.write(words())

    def write(self, text):
        with self.lock:
            print("\r" + text.ljust(self.width), end="", file=sys.stderr, flush=True)
            self.width = len(text)

    def clear(self):
        with self.lock:
            if self.width:
                self.write("")
                print("\r", end="", file=sys.stderr, flush=True)

    def above(self, text):
        """Prints a line that stays, on standard output."""
        with self.lock:
            self.clear()
            print(text, flush=True)


class Reading(Line):
    """The rounds of a script that were read, and its part where the size is known."""

    def __init__(self, name, size):
        super().__init__()
        self.name, self.size, self.given = name, size, 0

    def read(self, part, rounds):
        self.given += len(part)
        self.show(lambda: f"{self.name}: {rounds:,} rounds{self.share()}")

    def share(self):
        return f", {100 * self.given // self.size} % of the script" if self.size else ""


def since(began):
    seconds = int(time.monotonic() - began)
    return f"{seconds // 60} min {seconds % 60} s" if seconds >= 60 else f"{seconds} s"


@contextlib.contextmanager
def working(words):
    """Shows what a function says, and for how long, while work goes on that does not tell by itself how far it is."""
    line, began, done = Line(beside_output=False), time.monotonic(), threading.Event()

    def tell():
        while not done.wait(SHOWN_AGAIN):
            line.show(lambda: f"{words()}, {since(began)}")

    teller = threading.Thread(target=tell, daemon=True)
    if line.due < float("inf"):
        teller.start()
    try:
        yield line
    finally:
        done.set()
        if teller.is_alive():
            teller.join()
        line.clear()
