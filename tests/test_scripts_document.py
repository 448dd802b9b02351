"""The examples of docs/SCRIPTS.md, run by the model and by the listing command.

The command is ./listing with '-', or what RELAY_LISTING names: it reads a script on standard input and writes
its listing to standard output.

    RELAY_LISTING="python3 tests/model_listing.py" python3 tests/test_scripts_document.py
"""

import os
import pathlib
import re
import shlex
import subprocess
import tempfile
import unittest

import console_blocks
from model import listing

ROOT = pathlib.Path(__file__).resolve().parent.parent
DOCUMENT = (ROOT / "docs" / "SCRIPTS.md").read_bytes()
COMMAND = shlex.split(os.environ.get("RELAY_LISTING", "./listing -"))


def command_listing(script):
    return subprocess.run(COMMAND, input=script, capture_output=True, cwd=ROOT, check=False).stdout


def blocks():
    """The marked blocks in order, as (mark, text)."""
    return re.findall(rb"^```(\w+)\n(.*?)^```$", DOCUMENT, re.MULTILINE | re.DOTALL)


def examples():
    """Each script with the listing that the document prints after it."""
    marked = [(mark, text) for mark, text in blocks() if mark in (b"script", b"listing")]
    assert [mark for mark, _ in marked] == [b"script", b"listing"] * (len(marked) // 2)
    return [(marked[at][1], marked[at + 1][1]) for at in range(0, len(marked), 2)]


def malformed_lines():
    return [line for mark, text in blocks() if mark == b"malformed" for line in text.splitlines(keepends=True)]


class Document(unittest.TestCase):
    def check(self, listing_of):
        for script, printed in examples():
            self.assertEqual(listing_of(script), printed, script)

    def test_there_are_examples(self):
        self.assertGreaterEqual(len(examples()), 4)
        self.assertGreaterEqual(len(malformed_lines()), 15)

    def test_the_model_prints_them(self):
        self.check(listing.listing)

    def test_the_command_prints_them(self):
        self.check(command_listing)

    def test_commands(self):
        """The blocks marked `console`: each command prints what stands under it."""
        text = DOCUMENT.decode()
        self.assertGreaterEqual(len(console_blocks.commands(text)), 4)
        with tempfile.TemporaryDirectory() as folder:
            console_blocks.run(self, text, folder, ("relay", "listing", "examples"))

    def test_every_letter_is_shown(self):
        printed = b"".join(text for _, text in examples())
        for letter in b"DAEX":
            self.assertRegex(printed, rb"(?m)^[ 0-9]{6} %c" % letter)

    def test_malformed_lines(self):
        """A good round after the bad line must not be read; the command sees the first few of them."""
        for at, line in enumerate(malformed_lines()):
            script = b"N        2\n" + line + b"R        2        1\n" * 2
            for listing_of in (listing.listing, command_listing)[:2 if at < 4 else 1]:
                self.assertEqual(listing_of(script), b"     0 X  0 11 0        0        0\nEND\n", line)


if __name__ == "__main__":
    unittest.main()
