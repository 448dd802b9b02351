"""./relay load: the model's scripts, what it says of wrong numbers, its progress on a terminal, and constant memory."""

import os
import pty
import re
import subprocess
import unittest

from model import listing, load
from relay_command import ROOT, run


def peak(rounds):
    """The most memory that drawing so many rounds takes, in KiB; asked for in a process of its own."""
    child = ("import resource, subprocess, sys; subprocess.run(sys.argv[1:], stdout=subprocess.DEVNULL, check=True); "
             "print(resource.getrusage(resource.RUSAGE_CHILDREN).ru_maxrss)")
    done = subprocess.run(["python3", "-c", child, ROOT / "relay", "load", "1", "16", str(rounds)], capture_output=True,
                          check=True)
    return int(done.stdout)


class Load(unittest.TestCase):
    def test_scripts(self):
        for seed, n, rounds in ((0, 1, 0), (7, 2, 3), (4_294_967_295, 16, 40), (2_026, 5, 513), (1, 3, 1_025)):
            script = load.script(seed, n, rounds).decode()
            self.assertEqual(run("load", str(seed), str(n), str(rounds)), (0, script, ""))

    def test_into_a_listing(self):
        script = run("load", "2026", "5", "40")[1].encode()
        status, text, words = run("listing", "-", given=script)
        self.assertEqual((status, text, words), (0, listing.listing(script).decode(), ""))

    def test_the_document_s(self):
        """The block marked `load` of docs/SCRIPTS.md is what the command beside it writes."""
        text = (ROOT / "docs" / "SCRIPTS.md").read_text(encoding="utf-8")
        (words, block), = re.findall(r"`\./relay load ([\d ]+)` writes:\n\n```load\n(.*?)```", text, re.DOTALL)
        self.assertEqual(run("load", *words.split()), (0, block, ""))

    def test_refused(self):
        words = "relay load: refused with 1: N must be 1 to 16 and ROUNDS 0 to 999,999\n"
        for n, rounds in (("0", "1"), ("17", "1"), ("4294967295", "1"), ("2", "1000000"), ("2", "4294967295")):
            self.assertEqual(run("load", "1", n, rounds), (1, "", words))

    def test_wrong_use(self):
        for arguments in (("1", "2"), ("-1", "2", "3"), ("4294967296", "2", "3"), ("1", "2", "x"), ("1", "2", "3", "4"),
                          ("1", "2.0", "3"), ("", "2", "3"), ("1", "٣", "3")):
            status, text, words = run("load", *arguments)
            self.assertEqual((status, text), (2, ""))
            self.assertIn("usage: ./relay", words)

    def test_progress(self):
        """It is told where standard error is a terminal and standard output is not, and else not."""
        terminal, other = pty.openpty()
        done = subprocess.run([ROOT / "relay", "load", "1", "2", "3000"], stdout=subprocess.PIPE, stderr=other,
                              check=False)
        os.close(other)
        text = os.read(terminal, 4096).decode()
        os.close(terminal)
        self.assertEqual((done.returncode, done.stdout), (0, load.script(1, 2, 3_000)))
        self.assertRegex(text, r"^\r(?:[\d,]+ of 3,000 rounds\r)*3,000 of 3,000 rounds\r\n$")

    def test_constant_memory(self):
        self.assertLess(peak(60_000) - peak(100), 4_096)

    def test_broken_pipe(self):
        done = subprocess.run("./relay load 1 16 100000 | head -n 1", shell=True, cwd=ROOT, capture_output=True,
                              check=False)
        self.assertEqual((done.stdout, done.stderr), (load.size_line(16), b""))


if __name__ == "__main__":
    unittest.main()
