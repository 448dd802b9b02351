"""The headers for C: they declare what the archive exports, and their examples print what they say."""

import os
import pathlib
import re
import subprocess
import tempfile
import unittest

from relay_command import ROOT

from relay import library  # from tools, which relay_command puts on the path

HEADER = ROOT / "include" / "relay.h"
TEXTS = {header.name: header.read_text(encoding="utf-8") for header in sorted(HEADER.parent.glob("*.h"))}
PROGRAM = '#include <stdio.h>\n#include "%s"\nint main(void)\n{\n%s\n    return 0;\n}\n'


def archive():
    """The archive, built where it is missing."""
    library.shared_object()
    return pathlib.Path(os.environ.get("RELAY_ARCHIVE") or ROOT / library.ARCHIVE)


def examples(text):
    """The code of each example in a comment, and what its lines are said to print."""
    for block in re.findall(r"(?m)^   Example: .*\n(?:   \w.*\n)*\n((?:       .*\n)+)", text):
        block = block.replace(" */", "")
        yield re.sub(r"   prints .*", "", block), re.findall(r"   prints (.*)", block)


def declared(text):
    return set(re.findall(r"(?m)^uint32_t (\w+)\(", text))


def run(header, code, folder):
    """What a program of these statements prints."""
    source, program = pathlib.Path(folder, "example.c"), pathlib.Path(folder, "example")
    source.write_text(PROGRAM % (header, code))
    subprocess.run(["gcc", "-std=c11", "-Wall", "-Wextra", "-Werror", "-pedantic", f"-I{HEADER.parent}", source,
                    archive(), "-o", program], check=True)
    return subprocess.run([program], capture_output=True, text=True, check=True).stdout


class Header(unittest.TestCase):
    def test_declares_what_is_exported(self):
        """relay.h all of it, and another header some."""
        symbols = subprocess.run(["nm", "-g", "--defined-only", archive()], capture_output=True, text=True, check=True)
        exported = set(re.findall(r" T (\w+)", symbols.stdout))
        self.assertEqual(declared(TEXTS[HEADER.name]), exported)
        for name, text in TEXTS.items():
            self.assertLessEqual(declared(text), exported, name)

    def test_examples(self):
        for name, text in TEXTS.items():
            with self.subTest(name):
                self.run_examples(name, text)

    def run_examples(self, name, text):
        """A printed line is what is said of it, to the end or to a colon and what it means."""
        found = list(examples(text))
        self.assertEqual(len(found), text.count("   Example: "))
        self.assertGreaterEqual(len(found), 1)
        with tempfile.TemporaryDirectory() as folder:
            for code, said in found:
                printed = run(name, code, folder).splitlines()
                self.assertEqual(len(printed), len(said), code)
                for line, words in zip(printed, said):
                    self.assertTrue(words == line or words.startswith(f"{line}: "), (line, words))

    def test_every_call_on_a_state_has_an_example(self):
        calls = {name for name in declared(TEXTS[HEADER.name]) if re.match("relay_(station|group)_", name)}
        self.assertGreaterEqual(len(calls), 10)
        code = "".join(code for code, _ in examples(TEXTS[HEADER.name]))
        self.assertEqual({name for name in calls if f"{name}(" not in code}, set())


if __name__ == "__main__":
    unittest.main()
