"""The man page docs/relay.1: it is what the help texts give, it has all of them, and formatters do not complain."""

import os
import re
import shutil
import subprocess
import unittest

from relay_command import ROOT, run

from relay import command, faults, manual  # from tools, which relay_command puts on the path

PAGE = ROOT / "docs" / "relay.1"


def plain(text):
    """The text of a page or of a help without its form: words alone."""
    for sign, written in manual.SPECIAL.items():
        text = text.replace(written, sign)
    return re.findall(r"\w+", text.lower())


class Manual(unittest.TestCase):
    def test_stored(self):
        self.assertEqual(PAGE.read_text(encoding="utf-8"), manual.page(), "tools/manual writes it anew")

    def test_tells_what_the_help_tells(self):
        """Every option and the words of every help are in the page."""
        page = PAGE.read_text(encoding="utf-8")
        words = set(plain(page))
        for name in command.subcommands():
            text = run(name, "--help", env={**os.environ, "COLUMNS": "80"})[1]
            for option in set(re.findall(r"--[a-z]+", text)) - {"--help"}:
                self.assertIn(rf"\fB{manual.escaped(option)}", page, name)
            after = text[text.index("\n\n"):].replace("show this help message and exit", "").replace("docs/", "")
            missing = set(plain(after)) - words - {"positional", "arguments", "options", "h", "help"}
            self.assertEqual(missing, set(), name)

    def test_statuses(self):
        page = PAGE.read_text(encoding="utf-8")
        for number, text in faults.STATUSES:
            self.assertIn(f"\\fB{number}\\fR\n{manual.escaped(text)}\n", page)

    def test_formatters(self):
        """groff and man, each where it is installed; they warn of nothing."""
        for line in ("groff -man -ww -z", "groff -man -ww -Tutf8 -z", "man --warnings -l"):
            if shutil.which(line.split()[0]):
                done = subprocess.run([*line.split(), PAGE], stdout=subprocess.DEVNULL, stderr=subprocess.PIPE,
                                      text=True, check=False, env={**os.environ, "MANPAGER": "cat", "MANROFFSEQ": ""})
                self.assertEqual((done.returncode, done.stderr), (0, ""), line)


class Escapes(unittest.TestCase):
    def test_escaped(self):
        self.assertEqual(manual.escaped(".a\\b -c 'd'\n.e"), r"\&.a\eb \-c \(aqd\(aq" + "\n" + r"\&.e")

    def test_prose(self):
        self.assertEqual(manual.prose("one\ntwo:\n    a b\n    c\nthree\n\nfour"),
                         [".PP", "One\ntwo:", ".PP", ".RS 4", ".EX", "a b", "c", ".EE", ".RE", ".PP", "Three",
                          ".PP", "Four"])


if __name__ == "__main__":
    unittest.main()
