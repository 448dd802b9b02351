"""The planning screen's server, in this process."""

import contextlib
import threading

from relay.screen import answers, server


@contextlib.contextmanager
def screen(*names):
    """The server for these plans, while it is used."""
    named = answers.Named(list(map(str, names)))
    with server.Server(named, 0) as one:
        thread = threading.Thread(target=one.serve_forever, args=(0.05,))
        thread.start()
        try:
            yield one
        finally:
            one.shutdown()
            thread.join()
