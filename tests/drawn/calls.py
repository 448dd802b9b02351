"""Calls on stations and groups against the C face of the library, under AddressSanitizer and between pages that cannot be touched."""

import os
import pathlib
import random
import shlex
import subprocess
from array import array

from library import answers, formats, group_cases, station_cases
from library.cases import EDGES, changed
from model import states
from model.records import PLACES

from . import frames

NAMES = list(answers.CALLS)
FAULTS = {1: "reads the byte after a state", 2: "reads the byte before a state", 3: "writes a byte after a report", 4: "writes a byte after the taken stations",
          5: "changes a state though it is refused", 6: "changes the frame that is heard", 7: "gives another refusal for a bad record",
          8: "begins the count anew after 255", 9: "reads a mask that is not there", 10: "changes what stands from N up", 11: "reports though it is refused"}
WRAPPED = "relay_station_hear", "relay_station_turn", "relay_group_round"


# Cases from a seed.

def damaged(rng, data):
    """A few bytes of a state changed."""
    for _ in range(rng.choice((0, 1, 1, 2))):
        at = rng.randrange(len(data))
        data = changed(data, at, [rng.choice((*EDGES, data[at] ^ 1 << rng.randrange(8), rng.randrange(256)))])
    return data


def station_case(rng):
    n = rng.randint(1, PLACES)
    s = states.random_station(rng, n, rng.randrange(n))
    frame = station_cases.some_frame(rng, s) if rng.random() < 0.5 else station_cases.any_frame(rng, n)
    return rng.choice(list(station_cases.all_calls(rng, damaged(rng, formats.station_bytes(s)), frame)))


def group_case(rng):
    n = rng.randint(1, PLACES)
    data = formats.group_bytes(group_cases.some_group(rng, n))
    return rng.choice(list(group_cases.both(rng, damaged(rng, data), n)))


def any_state(rng):
    """Any bytes as a state."""
    data = rng.randbytes(rng.choice((formats.STATION, rng.randrange(2_000))))
    return rng.choice(list(station_cases.all_calls(rng, data, rng.randbytes(rng.randrange(300)))))


def at_once(rng, faults_of):
    """One of the calls with some of its faults."""
    make, every = rng.choice(list(faults_of.values()))
    return make(rng, [fault for fault in every if rng.random() < 0.3])


MAKERS = ((station_case, 10), (any_state, 1), (lambda rng: at_once(rng, station_cases.FAULTS), 5), (group_case, 1),
          (lambda rng: at_once(rng, group_cases.FAULTS), 1))


def cases(seed, count):
    rng = random.Random(f"calls {seed}")
    makers, weights = zip(*MAKERS)
    return [make(rng) for make in rng.choices(makers, weights, k=count)]


def number_bytes(number):
    return (number % 2 ** 32).to_bytes(4, "little")


def case_bytes(case):
    """A case as tests/host/check_calls.c reads it."""
    name, *given = case
    refusal, after = answers.answer(*case)
    numbers = [one for one in given if not isinstance(one, array)]
    buffers = [one for one in given if isinstance(one, array)]
    out = [NAMES.index(name), len(numbers), *numbers, len(buffers)]
    data = b"".join(map(number_bytes, out))
    for one, then in zip(buffers, after):
        data += number_bytes(one.itemsize) + number_bytes(len(one)) + one.tobytes() + array(one.typecode, then).tobytes()
    return data + number_bytes(refusal)


# The driver.

def compile_driver(driver, *sources):
    return frames.compile_driver(driver, *sources, main="check_calls.c")


def compile_false(fault, folder):
    """What links a false call over the archive: its object, built without AddressSanitizer, and the names that it takes."""
    made = pathlib.Path(folder, f"false_calls-{fault}.o")
    subprocess.run([*shlex.split(os.environ.get("CC", "gcc")), "-std=c11", "-O2", "-Wno-array-bounds", f"-DFAULT={fault}", f"-I{frames.ROOT / 'include'}",
                    "-c", frames.ROOT / "tests" / "drawn" / "false_calls.c", "-o", made], check=True)
    return [made, *(f"-Wl,--wrap={name}" for name in WRAPPED), frames.ARCHIVE]
