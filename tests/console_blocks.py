"""Blocks marked `console` in a document: commands behind `$`, and under each what it prints."""

import pathlib
import re
import subprocess

import relay_command

ROOT = pathlib.Path(__file__).resolve().parent.parent
BLOCK = r"(?ms)^```(\w*)\n(.*?)^```$"


def commands(document):
    """Each command of the document's blocks, with what is shown after it."""
    return [found for mark, block in re.findall(BLOCK, document) if mark == "console"
            for found in re.findall(r"(?m)^\$ (.*)\n((?:(?!\$ ).*\n)*)", block)]


def run(test, document, folder, names):
    """Runs the commands one after another in one folder, so that one can use what those before it made, and compares
    what they print, also on standard error. The folder gets links to these names of the repository's top."""
    if "relay" in names:
        relay_command.build()
    for name in names:
        pathlib.Path(folder, name).symlink_to(ROOT / name)
    for line, shown in commands(document):
        done = subprocess.run(line, shell=True, cwd=folder, stdin=subprocess.DEVNULL, stdout=subprocess.PIPE,
                              stderr=subprocess.STDOUT, text=True, check=False)
        test.assertEqual(done.stdout, shown, line)
