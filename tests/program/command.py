"""The listing program, run on a script that is given whole or in parts."""

import array
import fcntl
import os
import pathlib
import subprocess
import termios
import threading
import time
from typing import NamedTuple

ROOT = pathlib.Path(__file__).resolve().parent.parent.parent
SECONDS = 30  # for one script


def chosen():
    """The program that is compared: crates/relay_listing/out/relay_listing, or what RELAY_LISTING_PROGRAM names."""
    return pathlib.Path(os.environ.get("RELAY_LISTING_PROGRAM", ROOT / "crates" / "relay_listing" / "out" / "relay_listing"))


class Finished(NamedTuple):
    output: bytes
    fault: str       # how the program failed to end well, or nothing


def ending(status):
    if status == 0:
        return ""
    return f"the program ended with status {status}" if status > 0 else f"the program was ended by signal {-status}"


def whole(program, script):
    try:
        done = subprocess.run([program], input=script, stdout=subprocess.PIPE, timeout=SECONDS, check=False)
    except subprocess.TimeoutExpired as late:
        return Finished(late.stdout or b"", f"the program did not end in {SECONDS} s")
    return Finished(done.stdout, ending(done.returncode))


def in_parts(program, script, sizes):
    """The script in parts of these sizes; each part is given only when the one before has been read."""
    with subprocess.Popen([program], stdin=subprocess.PIPE, stdout=subprocess.PIPE, bufsize=0) as running:
        output = []
        reading = threading.Thread(target=lambda: output.append(running.stdout.read()))
        reading.start()
        late = time.monotonic() + SECONDS
        try:
            give(running, script, sizes, late)
        except BrokenPipeError:
            pass  # the program reads no further than a malformed line
        running.stdin.close()
        reading.join(max(0, late - time.monotonic()))
        if reading.is_alive():
            running.kill()
            reading.join()
            return Finished(b"".join(output), f"the program did not end in {SECONDS} s")
        status = running.wait()
    return Finished(b"".join(output), ending(status))


def give(running, script, sizes, late):
    at = 0
    for size in sizes:
        if at >= len(script) or running.poll() is not None or time.monotonic() > late:
            break
        os.write(running.stdin.fileno(), script[at:at + size])
        at += size
        while unread(running.stdin) and running.poll() is None and time.monotonic() < late:
            time.sleep(20e-6)


def unread(pipe):
    """How many bytes wait in a pipe."""
    count = array.array("i", [0])
    fcntl.ioctl(pipe.fileno(), termios.FIONREAD, count)
    return count[0]
