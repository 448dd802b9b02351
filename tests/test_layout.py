"""Code, contracts and definitions are within 120 columns, comments and the prose of documents within 100."""

import os
import pathlib
import re
import unittest

ROOT = pathlib.Path(__file__).resolve().parent.parent
WIDTH = 120
PROSE_WIDTH = 100
COMMENT = re.compile(r" *(?:--|///?|//!) ")
ATTRIBUTE = re.compile(r" *#\[tactic\(")  # 'rt fmt' puts an attribute on one line, however long
COMMIT = re.compile(r"[0-9a-f]{40}: ")


BUILT = {"target", "out", ".git"}   # not looked into, for a proof may be writing there


def documents():
    """The documents of the repository, but for what is built."""
    found = []
    for folder, below, files in os.walk(ROOT):
        below[:] = set(below) - BUILT
        found += [pathlib.Path(folder, name) for name in files if name.endswith(".md")]
    return sorted(found)


def prose(text):
    """The numbered lines of a document that are neither a table, a block, a picture nor a tag, and do not begin with a commit."""
    fenced = False
    for number, line in enumerate(text.splitlines(), 1):
        fenced ^= line.startswith("```")
        if not fenced and not line.startswith(("|", "    ", "![", "<")) and not COMMIT.match(line):
            yield number, line


class Layout(unittest.TestCase):
    def check_width(self, files, lines, width):
        found = [(path, lines(path.read_text(encoding="utf-8"))) for path in files]
        self.assertEqual([f"{path.relative_to(ROOT)}:{number}" for path, each in found for number, line in each if len(line) > width], [])

    def test_code(self):
        files = [*ROOT.glob("crates/*/src/**/*.rt"), *ROOT.glob("crates/*/specs/**/*.antt")]
        self.assertGreater(len(files), 200)
        self.check_width(files, lambda text: [(number, line) for number, line in enumerate(text.splitlines(), 1) if not ATTRIBUTE.match(line)], WIDTH)

    def test_comments(self):
        files = [*ROOT.glob("crates/*/src/**/*.rt"), *ROOT.glob("crates/*/specs/**/*.antt"), *ROOT.glob("crates/*/proofs/**/*.antt")]
        self.assertGreater(len(files), 800)
        self.check_width(files, lambda text: [(number, line) for number, line in enumerate(text.splitlines(), 1) if COMMENT.match(line)], PROSE_WIDTH)

    def test_prose(self):
        files = documents()
        self.assertGreater(len(files), 20)
        self.check_width(files, prose, PROSE_WIDTH)


if __name__ == "__main__":
    unittest.main()
