"""Installs the library for C, the command and its man page.

librelay.a, librelay.so, relay.h and relay.pc go where cc and pkg-config look;
the command, man page, documents and examples where Debian users expect them.
What is not built yet is proved and built first. The installed command needs
Python 3, but neither this folder nor the Rattle toolchain. Installing again
replaces what is there. DESTDIR, where it is set, is put before PREFIX while
files are written.

example:
    ./relay install ~/.local
"""

import contextlib
import os
import pathlib
import tempfile
from typing import NamedTuple

from . import VERSION, completion, library, places
from .faults import Misused, Missing

ONLY_IN_REPOSITORY = True
SONAME = f"librelay.so.{VERSION.partition('.')[0]}"
PROGRAM = pathlib.Path("crates", "relay_listing", "out", "relay_listing")
MODULES = "progress.py", "run_listing.py", "script_faults.py", "svg.py"    # of tools, for the command
HERE_ONLY = "completion.py", "install.py", "manual.py"                    # of tools/relay
DOCUMENTS = ("EXTENDED-SCRIPTS.md", "PLANNING.md", "SCRIPTS.md", "five-stations.svg", "killed-station.svg",
             "link-plan.svg", "screen.png")
SYSTEM = "/usr", "/usr/local"   # where the compiler, the loader and pkg-config look by themselves

COMMAND = '''#!/usr/bin/env python3
"""The edit relay on the command line: relay --help, or man relay."""

import pathlib
import sys

sys.dont_write_bytecode = True
sys.path.insert(0, str(pathlib.Path(__file__).resolve().parent.parent / "share" / "relay"))

from relay import command  # noqa: E402

sys.exit(command.main())
'''
PKG_CONFIG = """prefix=%s
libdir=${prefix}/lib
includedir=${prefix}/include

Name: relay
Description: The edit relay: playlist edits between stations, proved in Rattle
Version: %s
Libs: -L${libdir} -lrelay
Cflags: -I${includedir}
"""
INSTALLED = """relay %s is installed below %s:
    bin/relay                  the command
    lib/librelay.a, .so        the library; include/relay.h is its header
    lib/pkgconfig/relay.pc     cc program.c $(pkg-config --cflags --libs relay)
    share/man/man1/relay.1     the man page
    share/doc/relay            documents and examples"""


class File(NamedTuple):
    """A file to be put below PREFIX."""
    place: str
    data: bytes
    mode: int = 0o644


def arguments(parser):
    parser.add_argument("prefix", metavar="PREFIX", help="the folder, as /usr/local or ~/.local; it is made if need be")


# What is installed.

def listing_program():
    """The proved program for listings, built where it is missing."""
    named = os.environ.get("RELAY_LISTING_PROGRAM")
    program = pathlib.Path(named) if named else places.ROOT / PROGRAM
    if not program.exists() and not named:
        library.build("run", PROGRAM.name, PROGRAM)
    if not program.exists():
        raise Missing(f"there is no program {program}")
    return program


def shared_object(archive):
    """The bytes of a shared object that has its own name in it, made of the archive."""
    with tempfile.TemporaryDirectory() as folder:
        made = pathlib.Path(folder, SONAME)
        library.link(archive, made, f"-Wl,-soname,{SONAME}")
        return made.read_bytes()


def files(prefix):
    archive, program, root = library.archive_file(), listing_program(), places.ROOT
    yield File("lib/librelay.a", archive.read_bytes())
    yield File(f"lib/{SONAME}", shared_object(archive))
    yield File("lib/pkgconfig/relay.pc", (PKG_CONFIG % (prefix, VERSION)).encode())
    yield File("bin/relay", COMMAND.encode(), 0o755)
    yield File("libexec/relay/relay_listing", program.read_bytes(), 0o755)
    yield File("share/bash-completion/completions/relay", completion.script().encode())
    yield from those("include", sorted((root / "include").glob("*.h")))
    yield from those("share/man/man1", [root / "docs" / "relay.1"])
    yield from those("share/doc/relay", [root / "docs" / name for name in DOCUMENTS])
    yield from those("share/doc/relay/examples", sorted(one for one in (root / "examples").iterdir() if one.is_file()))
    yield from those("share/relay", [root / "tools" / name for name in MODULES])
    package = root / "tools" / "relay"
    for folder in (package, package / "screen"):
        place = pathlib.Path("share/relay", folder.relative_to(root / "tools"))
        yield from those(place, sorted(one for one in folder.iterdir() if one.is_file() and one.name not in HERE_ONLY))


def those(place, sources):
    """Files of the repository, as they are."""
    return [File(f"{place}/{source.name}", source.read_bytes()) for source in sources]


# Installing.

@contextlib.contextmanager
def written(file):
    """Turns what goes wrong at a file into words."""
    try:
        yield
    except OSError as wrong:
        raise Missing(f"cannot write {file}: {wrong.strerror}") from None


def put(target, data, mode):
    """Writes a file. It gets its name when it is whole, so a program that runs keeps the library it has loaded."""
    with written(target):
        target.parent.mkdir(parents=True, exist_ok=True)
        descriptor, part = tempfile.mkstemp(dir=target.parent)
        try:
            with open(descriptor, "wb") as file:
                file.write(data)
            os.chmod(part, mode)
            os.replace(part, target)
        except BaseException:
            os.unlink(part)
            raise


def point(link, name):
    """Makes a symbolic link."""
    with written(link), tempfile.TemporaryDirectory(dir=link.parent) as folder:
        part = pathlib.Path(folder, link.name)
        part.symlink_to(name)
        os.replace(part, link)


def clear(folder, kept):
    """Takes away the modules of an older version: the command would take them for its own."""
    for file in folder.rglob("*"):
        if file not in kept and not file.is_dir():
            with written(file):
                file.unlink()


def hint(prefix):
    """What is left to do."""
    if str(prefix) in SYSTEM:
        return "'ldconfig', as root, lets programs find the shared object."
    return (f"Shells need: export PATH={prefix}/bin:$PATH\n"
            f"and for C:   export PKG_CONFIG_PATH={prefix}/lib/pkgconfig LD_LIBRARY_PATH={prefix}/lib")


def run(given):
    if not given.prefix:
        raise Misused("PREFIX is empty; it is a folder, as /usr/local")
    prefix = pathlib.Path(os.path.abspath(given.prefix))
    below = pathlib.Path(os.path.abspath(os.environ["DESTDIR"] + str(prefix))) if os.environ.get("DESTDIR") else prefix
    found = list(files(prefix))
    for file in found:
        put(below / file.place, file.data, file.mode)
    point(below / "lib" / "librelay.so", SONAME)
    clear(below / "share" / "relay", {below / file.place for file in found})
    print(INSTALLED % (VERSION, below))
    if below == prefix:
        print(hint(prefix))
