"""docs/ARCHITECTURE.md against the repository: every crate has its row, with what it stands on, rows come lowest first, and named files are there."""

import pathlib
import re
import unittest

from definitions import WORD, definitions, named_by, reached as reached_definitions

ROOT = pathlib.Path(__file__).resolve().parent.parent
DOCUMENT = (ROOT / "docs" / "ARCHITECTURE.md").read_text(encoding="utf-8")


def crates():
    """Name -> what it stands on, from crates.txt, lowest first."""
    lines = (ROOT / "crates.txt").read_text(encoding="utf-8").splitlines()
    pairs = [line.split(":") for line in lines if line and not line.startswith("#")]
    return {named.split()[0]: rest.split() for named, rest in pairs}     # behind a name stands `staticlib` where it is one


def reached(below):
    """Name -> everything below the crate; those below it stand before it in crates.txt."""
    found = {}
    for name, names in below.items():
        found[name] = set(names).union(*(found.get(other, set()) for other in names))
    return found


def direct():
    """Name -> what it stands on, without what another of these stands on already."""
    below = crates()
    found = reached(below)
    return {name: sorted(set(names).difference(*(found.get(other, set()) for other in names))) for name, names in below.items()}


def rows():
    """Name -> what it stands on, from the document's table of crates in its order."""
    table = DOCUMENT.split("## The crates")[1].split("\n## ")[0]
    found = re.findall(r"^\| (\w+) \| ([\w, ]*?) ?\|", table, re.MULTILINE)
    return {name: re.findall(r"\w+", rest) for name, rest in found if name != "Crate"}


# The calls of document 01, its round trips and demand 3.
ENGINE = {
    "frame_spec": ("check_refusal", "records_of", "frame_bytes", "records_fit"),
    "station_spec": ("fresh_call", "post_call", "write_call", "buffer_after", "hear_call", "turn_call"),
    "group_spec": ("group_fresh_call", "group_post_call", "round_call", "DemandThree"),
}


def to_believe(definition):
    """A definition that stands for what is right: no means of proof, and not what stands past the end of a list."""
    return not re.match(r"Inner\b|Absent$", definition[1])


def engine():
    """The definitions that the engine's calls and demand 3 reach."""
    roots = [definition for definition in definitions() if definition[2] in ENGINE.get(definition[0], ())]
    return set(filter(to_believe, reached_definitions(roots)))


def read_first():
    """The definitions of all folders to read first, those of the planning calls among them."""
    section = DOCUMENT.split("## What to read first")[1].split("\n## ")[0]
    folders = set(re.findall(r"`(\w+)/specs`", section.split("Text has its own")[0]))
    return [definition for definition in definitions() if definition[0] in folders and to_believe(definition)]


def lines(of):
    return sum(len(definitions()[definition]) for definition in of)


class Architecture(unittest.TestCase):
    def test_lines_to_read(self):
        """The document says at most how many lines of definitions there are to read: for the engine, and in all folders."""
        said = [int(number.replace(",", "")) for number in re.findall(r"at most\s+([\d,]+)\s+lines", DOCUMENT)]
        for counted, most in zip((lines(engine()), lines(read_first())), said, strict=True):
            self.assertGreater(counted, most - 40)
            self.assertLessEqual(counted, most)

    def test_nothing_else_to_read(self):
        """Every definition in the folders to read first is named by a contract, by another definition or in GUARANTEES: what only proofs need stands elsewhere."""
        contracts = " ".join(path.read_text(encoding="utf-8") for path in ROOT.glob("crates/*/src/**/*.rt"))
        guarantees = (ROOT / "docs" / "GUARANTEES.md").read_text(encoding="utf-8")
        named = set(WORD.findall(contracts + guarantees.replace("`", " ")))
        for definition in definitions():
            named.update(other[2] for other in named_by(definition))
        self.assertEqual([definition for definition in read_first() if definition[2] not in named], [])

    def test_short(self):
        """The map stays short enough to be read at once."""
        self.assertLessEqual(len(DOCUMENT.splitlines()), 100)

    def test_rows(self):
        self.assertEqual({name: sorted(below) for name, below in rows().items()}, direct())

    def test_lowest_first(self):
        seen = set()
        for name, below in rows().items():
            self.assertLessEqual(set(below), seen, name)
            seen.add(name)

    def test_named_files(self):
        """Every file that is named is there: in the repository, in a crate, or in some crate where the name begins with src, specs or proofs."""
        for name in re.findall(r"`?([a-z_]+/[\w./]+\.(?:antt|rt|py|md|c))\b", DOCUMENT):
            places = [ROOT / name, ROOT / "crates" / name, *ROOT.glob(f"crates/*/{name}")]
            self.assertTrue(any(place.is_file() for place in places), name)


if __name__ == "__main__":
    unittest.main()
