"""What the documents cite is there: the files of crates, the definitions and theorems that a document names beside their file, and the functions."""

import pathlib
import re
import unittest

from edits import edits

ROOT = pathlib.Path(__file__).resolve().parent.parent
DOCUMENTS = {path.name: path.read_text(encoding="utf-8") for path in sorted((ROOT / "docs").glob("*.md"))}
FILE = r"([a-z_]+)/((?:specs|proofs)/[A-Z]\w*)"
NAMES = r"((?:`[\w-]+`(?:, | and )?)+)"


def text_of(crate, file):
    """The text of a file of definitions or proofs, or nothing where there is none."""
    path = ROOT / "crates" / crate / f"{file}.antt"
    return path.read_text(encoding="utf-8") if path.is_file() else ""


def defines(text, name):
    """The text has a definition, a theorem, a field, a record or a data type of this name."""
    return re.search(rf"(?m)^\s*(?:\w+ )*{name} :|^\s*(?:pub )?(?:record|data) {name}\b", text)


class Cited(unittest.TestCase):
    def test_files(self):
        for document, text in DOCUMENTS.items():
            for crate, file in re.findall(FILE, text):
                self.assertTrue(text_of(crate, file), f"{document}: {crate}/{file}")

    def test_names(self):
        """Names in backquotes, and then in parentheses or after a comma the file that has them."""
        found = 0
        for document, text in DOCUMENTS.items():
            for names, crate, file in re.findall(NAMES + r",? \(?" + FILE, text):
                for name in re.findall(r"`([\w-]+)`", names):
                    found += 1
                    self.assertTrue(defines(text_of(crate, file), name), f"{document}: {name} of {crate}/{file}")
        self.assertGreater(found, 15)

    def test_guarantees(self):
        """Every name in backquotes, with a file or without one, stands for something: a definition, theorem or field, a
        type or function of the code, or a crate."""
        crates = ROOT / "crates"
        known = {path.name for path in crates.iterdir()} | {"must-fail", "specs"}
        form = re.compile(r"(?m)^\s*(?:\w+ )*([\w-]+) :|^\s*(?:pub )?(?:record|data) (\w+)")
        for path in [*crates.glob("*/specs/**/*.antt"), *crates.glob("*/proofs/**/*.antt")]:
            for named in form.findall(path.read_text(encoding="utf-8")):
                known.update(named)
        for path in crates.glob("*/src/**/*.rt"):
            known.update(re.findall(r"\b(?:fn|struct|enum) (\w+)", path.read_text(encoding="utf-8")))
        names = set(re.findall(r"`(?:\w+\.)?([a-z][\w-]*|[A-Z][a-z][\w-]*)`", DOCUMENTS["GUARANTEES.md"]))
        self.assertGreater(len(names), 200)
        self.assertEqual(names - known, set())

    def test_guarantees_are_whole(self):
        """Each request has its section, in order; each house rule and each function for C is named."""
        text = DOCUMENTS["GUARANTEES.md"]
        self.assertEqual(re.findall(r"(?m)^## (A\d+):", text), [f"A{k}" for k in range(1, 15)])
        header = (ROOT / "include" / "relay.h").read_text(encoding="utf-8")
        exported = re.findall(r"(?m)^uint32_t (\w+)\(", header)
        self.assertGreater(len(exported), 20)
        for name in ["H1", "H2", "H3", "H4", *exported]:
            self.assertRegex(text, rf"\b{name}\b")

    def test_functions(self):
        """Functions by their path: crate, module where there is one, and name. The functions for C stand in modules of `relay` and are named without them."""
        found = 0
        for document, text in DOCUMENTS.items():
            for crate, module, name in re.findall(r"`([a-z_]+)::(?:([a-z_]+)::)?([a-z_]+)`", text):
                folder = ROOT / "crates" / crate / "src"
                if not module and (folder / f"{name}.rt").is_file():
                    continue  # a module
                files = folder.glob("*.rt") if crate == "relay" else [folder / f"{module or 'lib'}.rt"]
                code = "".join(path.read_text(encoding="utf-8") for path in files if path.is_file())
                self.assertTrue(re.search(rf"\bfn {name}\(", code), f"{document}: {crate}::{module}::{name}")
                found += 1
        self.assertGreater(found, 100)

    def test_edits(self):
        """The wrong versions of docs/DECISIONS.md, each with the faults of edits that stand for it, in whatever crate."""
        faults = {fault.name for edit in edits() for fault in edit.faults}
        section = DOCUMENTS["DECISIONS.md"].split("### What refuses each wrong version")[1].split("\n## ")[0]
        rows = [" ".join(row.split()).split(". Refused by")[0] for row in section.split("\n- ")[1:]]
        named = [name for row in rows for name in re.findall(r"`(\w+)`", row)]
        self.assertGreater(len(named), 60)
        for name in named:
            self.assertIn(name, faults)


if __name__ == "__main__":
    unittest.main()
