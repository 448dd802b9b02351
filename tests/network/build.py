"""Builds the host and what its tests load."""

import os
import pathlib
import subprocess

ROOT = pathlib.Path(__file__).resolve().parent.parent.parent
HOST = ROOT / "examples" / "host"
COMPILER = os.environ.get("CC", "gcc")
SANITIZERS = ("-O1", "-g", "-fsanitize=address,undefined", "-fno-sanitize-recover=all")


def archive():
    """The library, as RELAY_ARCHIVE names it or as `rt lib` makes it in crates/relay."""
    return pathlib.Path(os.environ.get("RELAY_ARCHIVE", ROOT / "crates" / "relay" / "out" / "librelay.a"))


def host(folder, *options, name="host"):
    """The host, built with these options of the compiler."""
    program = pathlib.Path(folder, name)
    subprocess.run([HOST / "build", program, *options], check=True)
    return program


def edited(folder, file, old, new):
    """A copy of the host's files in a folder, with one edit."""
    text = (HOST / file).read_text(encoding="ascii")
    if text.count(old) != 1:
        raise ValueError(f"{file} has {text.count(old)} places for an edit, not one: {old!r}")
    for source in HOST.glob("*.[ch]"):
        pathlib.Path(folder, source.name).write_bytes(source.read_bytes())
    pathlib.Path(folder, file).write_text(text.replace(old, new), encoding="ascii")


def shim(folder):
    made = pathlib.Path(folder, "shim.so")
    subprocess.run([COMPILER, "-std=c11", "-O1", "-Wall", "-Wextra", "-Werror", "-shared", "-fPIC",
                    ROOT / "tests" / "network" / "shim.c", "-o", made, "-ldl"], check=True)
    return made


def fuzz_sources(folder):
    """What the fuzz target is made of: the host without its sockets, clock, options and words."""
    parts = ("siphash", "engine", "datagram", "inbox", "lines", "station", "saved", "posts")
    return [ROOT / "tests" / "network" / "fuzz.c", *(pathlib.Path(folder, f"{part}.c") for part in parts)]


def compile_fuzz(compiler, folder, name, *more, sources=HOST):
    made = pathlib.Path(folder, name)
    words = [compiler, "-std=c11", "-D_GNU_SOURCE", "-Wall", "-Wextra", "-Werror", *more,
             f"-I{ROOT / 'include'}", f"-I{sources}", *fuzz_sources(sources), archive(), "-o", made]
    return made, words


def fuzz(folder, sources=HOST):
    """The fuzz target with a driver of its own, over the host's files in this folder."""
    driver = ROOT / "tests" / "network" / "fuzz_alone.c"
    made, words = compile_fuzz(COMPILER, folder, "fuzz", *SANITIZERS, driver, sources=sources)
    subprocess.run(words, check=True)
    return made


def libfuzzer(folder):
    """The fuzz target with libFuzzer, or None where clang does not have it."""
    options = "-O1", "-g", "-fsanitize=fuzzer,address,undefined", "-fno-sanitize-recover=all"
    made, words = compile_fuzz("clang", folder, "libfuzzer", *options)
    try:
        done = subprocess.run(words, capture_output=True, check=False)
    except FileNotFoundError:
        return None
    return made if done.returncode == 0 else None
