"""docs/PLANNING.md: what the document shows after a command is what the command prints, and its pictures are what the
commands draw."""

import pathlib
import re
import tempfile
import unittest

import console_blocks
from console_blocks import BLOCK, ROOT

DOCUMENT = (ROOT / "docs" / "PLANNING.md").read_text(encoding="utf-8")


class Document(unittest.TestCase):
    def test_examples(self):
        """The pictures that the commands draw are those in the document, and it has no others but the screen's."""
        self.assertGreaterEqual(len(console_blocks.commands(DOCUMENT)), 20)
        with tempfile.TemporaryDirectory() as folder:
            console_blocks.run(self, DOCUMENT, folder, ("relay", "listing", "tools", "examples"))
            drawn = {path.name: path.read_bytes() for path in pathlib.Path(folder).glob("*.svg")}
        self.assertEqual(set(re.findall(r"\]\(([\w-]+\.(?:svg|png))\)", DOCUMENT)), set(drawn) | {"screen.png"})
        for name, picture in drawn.items():
            self.assertTrue(picture == (ROOT / "docs" / name).read_bytes(), f"docs/{name} is not what is drawn")

    def test_every_block_is_run(self):
        """Every block is marked `console` and is a command with what it prints; no block is indented instead."""
        blocks = re.findall(BLOCK, DOCUMENT)
        self.assertEqual({mark for mark, _ in blocks}, {"console"})
        for _, block in blocks:
            self.assertTrue(block.startswith("$ "), block)
        self.assertNotRegex(re.sub(BLOCK, "", DOCUMENT), r"(?m)^(?:    |\t)")


if __name__ == "__main__":
    unittest.main()
