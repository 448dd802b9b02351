"""The definitions of the crates' specs: where each stands, how many lines it has, and which others it names."""

import functools
import pathlib
import re

ROOT = pathlib.Path(__file__).resolve().parent.parent
HEAD = re.compile(r"(?:  )?(?:(?:abbrev|unfoldable)(?: pub)?|pub (?:record|data)) ([^\s:(]+)")
USE = re.compile(r"^(?:pub )?use Rattle\.(\w+)\.specs\.([\w.]+)\.\{([^}]*)\}", re.MULTILINE)
WORD = re.compile(r"[^\s(){};,\[\]λ.«»]+")


@functools.cache
def modules():
    """(crate, module) -> its text, for every file of specs."""
    found = {}
    for path in sorted(ROOT.glob("crates/*/specs/**/*.antt")):
        crate, _, *rest = path.relative_to(ROOT / "crates").with_suffix("").parts
        found[crate, ".".join(rest)] = path.read_text(encoding="utf-8")
    return found


@functools.cache
def definitions():
    """(crate, module, name) -> its lines, without comments and blank ones."""
    found = {}
    for place, text in modules().items():
        lines = None
        for line in re.sub(r"^(pub )?(use|mod) [^{\n]*(\{[^}]*\})?$|^module .*$", "", text, flags=re.MULTILINE).splitlines():
            if head := HEAD.match(line):
                lines = found.setdefault((*place, head[1]), [])
            elif re.match(r"pub [^\s:(]+ :", line):
                lines = None  # a law that stands among definitions
            if lines is not None and line.strip() and not line.strip().startswith("--"):
                lines.append(line)
    return found


@functools.cache
def imported(place):
    """Name -> the file that it is imported from, for one file."""
    return {name.strip(): (crate, module) for crate, module, names in USE.findall(modules()[place]) for name in names.split(",")}


def found_from(place, name):
    """The definition that a name in a file means: of that file, or of the file that it is imported from, which may pass it on."""
    while place in modules():
        if (*place, name) in definitions():
            return (*place, name)
        place = imported(place).get(name)
    return None


def named_by(definition):
    """The definitions that a definition names."""
    words = set(WORD.findall(" ".join(definitions()[definition])))
    return {found_from(definition[:2], word) for word in words} - {definition, None}


def reached(roots):
    """These definitions, and all that they name in turn."""
    found, due = set(), list(roots)
    while due:
        definition = due.pop()
        if definition not in found:
            found.add(definition)
            due.extend(named_by(definition))
    return found
