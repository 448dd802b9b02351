"""Frames, valid and damaged, against the C face of the frame check, under AddressSanitizer and between pages that cannot be read."""

import os
import pathlib
import random
import shlex
import subprocess

from model import frames, states
from model.bodies import KINDS

ROOT = pathlib.Path(__file__).resolve().parent.parent.parent
ARCHIVE = pathlib.Path(os.environ.get("RELAY_ARCHIVE", ROOT / "crates" / "relay" / "out" / "librelay.a"))
FAULTS = {1: "reads the byte after a frame", 2: "reads the byte before a frame", 3: "writes to a frame", 4: "accepts any record of sixteen stations",
          5: "refuses full frames", 6: "gives another refusal for some labels"}

SPECIAL = (0, 1, 2, 3, 4, 5, 15, 16, 17, 30, 31, 63, 64, 127, 128, 191, 192, 200, 201, 254, 255)
LIMITS = sorted({limit + change for row in KINDS.values() for limit in row for change in (-1, 0, 1)} | {2 ** 31 - 1, -2 ** 31, 2 ** 32 - 1})


# Frames from a seed.

def some_case(rng):
    """A frame with what was done to it, the N, the own number and the edition that it is checked with."""
    n, edition = rng.randint(1, 16), rng.randrange(2)
    sender = rng.randrange(n)
    held = rng.choice((0.0, 0.5, 0.9, 1.0))
    data = frames.frame_bytes(n, sender, [states.random_record(rng, n, k, edition=edition) for k in range(n) if k == sender or rng.random() < held],
                              edition)
    for _ in range(rng.choice((0, 1, 1, 1, 2, 3, 6))):
        data = rng.choice(CHANGES)(rng, data)
    own = rng.choice([k for k in range(n) if k != sender] or [0])
    if rng.random() < 0.08:
        n, own = rng.choice(((0, 0), (17, 0), (n, n), (n, sender), (n, 2 ** 32 - 1), (2 ** 32 - 1, 0), (256 + n, own), (n, 256 + own), (n % 16 + 1, 0)))
    if rng.random() < 0.05:
        edition = rng.choice((1 - edition, 2, 255, 256 + edition, 2 ** 32 - 1))
    return data, n, own, edition


def any_bytes(rng):
    """Bytes that were never a frame, often with a length that fits."""
    count = rng.randint(0, 17)
    data = rng.randbytes(rng.choice((rng.randrange(300), 4 + 16 * count)))
    n = rng.randint(0, 17)
    if rng.random() < 0.8:
        data = bytes([n, rng.randrange(17), count, rng.randrange(2)])[:len(data)] + data[4:]
    return data, n, rng.randrange(17), rng.randrange(2)


def at_any(rng, data, value):
    """The bytes with another value somewhere; value is given the old one."""
    if not data:
        return data
    at = rng.randrange(len(data))
    return data[:at] + bytes([value(data[at]) & 255]) + data[at + 1:]


def record_at(rng, data):
    """Where some record begins, as far as the bytes have records."""
    return 4 + 16 * rng.randrange(max(1, (len(data) - 4) // 16))


def number_set(rng, data):
    """An event, an argument or a field of labels at one of the limits."""
    at = record_at(rng, data) + rng.choice((4, 8, 12))
    return data[:at] + (rng.choice(LIMITS) % 2 ** 32).to_bytes(4, "little") + data[at + 4:]


def records_exchanged(rng, data):
    one, two = sorted((record_at(rng, data), record_at(rng, data)))
    return data if one == two else data[:one] + data[two:two + 16] + data[one + 16:two] + data[one:one + 16] + data[two + 16:]


def counted(data):
    """The bytes with the number of records that they have."""
    return data[:2] + bytes([len(data) // 16 & 255]) + data[3:] if len(data) > 3 else data


def record_lost(rng, data):
    at = record_at(rng, data)
    lost = data[:at] + data[at + 16:]
    return rng.choice((lost, counted(lost)))


def record_doubled(rng, data):
    at = record_at(rng, data)
    doubled = data[:at] + data[at:at + 16] + data[at:]
    return rng.choice((doubled, counted(doubled)))


CHANGES = (
    lambda rng, data: at_any(rng, data, lambda byte: byte ^ 1 << rng.randrange(8)),
    lambda rng, data: at_any(rng, data, lambda byte: byte + rng.choice((-1, 1))),
    lambda rng, data: at_any(rng, data, lambda byte: rng.choice(SPECIAL)),
    lambda rng, data: at_any(rng, data, lambda byte: rng.randrange(256)),
    lambda rng, data: at_any(rng, data[:20], lambda byte: rng.choice(SPECIAL)) + data[20:],
    lambda rng, data: data[:rng.randrange(len(data) + 1)],
    lambda rng, data: data + rng.randbytes(rng.choice((1, 3, 4, 15, 16, 17, 32))),
    lambda rng, data: data[rng.choice((1, 4, 16)):],
    number_set, number_set, records_exchanged, record_lost, record_doubled,
)


def cases(seed, count):
    rng = random.Random(f"frames {seed}")
    return [(some_case if rng.random() < 0.8 else any_bytes)(rng) for _ in range(count)]


def case_bytes(case):
    """A case as tests/host/check_frames.c reads it."""
    data, *how = case
    return b"".join(number.to_bytes(4, "little") for number in (len(data), *how, frames.check_frame(*case))) + data


# The driver.

def compile_driver(driver, *sources, main="check_frames.c"):
    """The driver under AddressSanitizer, linked with these; whether it could be built."""
    compiler = shlex.split(os.environ.get("CC", "gcc"))
    return subprocess.run([*compiler, "-std=c11", "-O1", "-g", "-fsanitize=address", "-Wall", "-Wextra", "-Werror", f"-I{ROOT / 'include'}",
                           ROOT / "tests" / "host" / main, *sources, "-o", driver]).returncode == 0


def compile_false(fault, folder):
    """An object with a false frame check, built as an archive would be: without AddressSanitizer."""
    made = []
    for source in (ROOT / "tests" / "drawn" / "false.c", ROOT / "bench" / "frame_check_peer.c"):
        made.append(pathlib.Path(folder, f"{source.stem}-{fault}.o"))
        subprocess.run([*shlex.split(os.environ.get("CC", "gcc")), "-std=c11", "-O2", "-Wno-array-bounds", f"-DFAULT={fault}", f"-I{ROOT / 'include'}",
                        f"-I{ROOT / 'bench'}", "-c", source, "-o", made[-1]], check=True)
    return made


def build_archive():
    """The archive, proved and built unless RELAY_ARCHIVE names another; gives the words of a failure."""
    if "RELAY_ARCHIVE" in os.environ:
        return ""
    done = subprocess.run(["rt", "lib"], cwd=ROOT / "crates" / "relay", stdout=subprocess.PIPE, stderr=subprocess.STDOUT, text=True, check=False)
    return "" if done.returncode == 0 else "\n".join(done.stdout.splitlines()[-5:])


def run(driver, encoded):
    """Whether every answer is the model's and no byte outside a frame was touched, and what was said."""
    done = subprocess.run([driver], input=b"".join(encoded), stdout=subprocess.PIPE, stderr=subprocess.STDOUT, check=False)
    return done.returncode == 0, done.stdout.decode(errors="replace")


def first_bad(driver, encoded):
    """The first case of a bad run that is bad by itself, found by halving, or None where it takes more than one."""
    while len(encoded) > 1:
        half = len(encoded) // 2
        encoded = encoded[:half] if not run(driver, encoded[:half])[0] else encoded[half:]
    return encoded[0] if not run(driver, encoded)[0] else None
