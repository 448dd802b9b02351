"""Progress of long work: on a terminal, after a second, on one line that is gone at the end; elsewhere nothing."""

import os
import pathlib
import subprocess
import sys
import tempfile
import unittest

from model.extended import extended_listing
from model.malformed import GOOD_ROUND, N2
from relay_command import ROOT, on_a_terminal

RT = """#!/bin/sh
[ "$1" = lib ] || { echo "what the program prints"; exec >&2; }
echo "only=0 proved=0"
echo "rt: chose --jobs 2 for places"
echo "logic=proved functions=2"
echo "rt: chose --jobs 2 for kinds"
echo "logic=proved functions=1"
echo "rt: chose --jobs 2 for listing"
sleep 1.5
echo "the last words of $* in ${PWD##*/}"
exit %d
"""
GONE = r"\r +\r$"


def python(program, terminal=True):
    """Runs a program of Python that has the modules of tools."""
    command = [sys.executable, "-B", "-c", f"import sys, time; sys.path.insert(0, {str(ROOT / 'tools')!r}); {program}"]
    if terminal:
        return on_a_terminal(command)
    done = subprocess.run(command, capture_output=True, text=True, check=False)
    return done.returncode, done.stderr


class Working(unittest.TestCase):
    PROGRAM = "import progress\nwith progress.working(lambda: 'at work'): time.sleep(%s)"

    def test_on_a_terminal(self):
        status, said = python(self.PROGRAM % 1.7)
        self.assertEqual(status, 0)
        self.assertRegex(said, r"^(\rat work, \d s)+" + GONE)

    def test_lines_that_stay(self):
        status, said = python("import progress; sys.stdout = sys.stderr\n"
                              "with progress.working(lambda: 'at work') as line: time.sleep(1.5); line.above('a part')")
        self.assertEqual(status, 0)
        self.assertRegex(said, r"^(\rat work, \d s)+\r +\ra part\r\n(\rat work, \d s" + GONE[:-1] + ")?$")

    def test_short_work(self):
        self.assertEqual(python(self.PROGRAM % 0.05), (0, ""))

    def test_elsewhere(self):
        self.assertEqual(python(self.PROGRAM % 1.5, terminal=False), (0, ""))

    def test_minutes(self):
        status, said = python("import progress; print(progress.since(time.monotonic() - 125), file=sys.stderr)",
                              terminal=False)
        self.assertEqual((status, said), (0, "2 min 5 s\n"))


class Build(unittest.TestCase):
    """The proof and the build by rt, which is a stand-in here."""

    def setUp(self):
        self.folder = tempfile.TemporaryDirectory()
        self.addCleanup(self.folder.cleanup)
        self.root = pathlib.Path(self.folder.name)
        (self.root / "crates.txt").write_text("# crates\nplaces:\nkinds: places\nlinks: places\n"
                                              "listing staticlib: places kinds io\n")
        (self.root / "crates" / "listing").mkdir(parents=True)
        self.environment = {**os.environ, "PATH": f"{self.root}:{os.environ['PATH']}"}

    def build(self, status, terminal, how="lib"):
        rt = self.root / "rt"
        rt.write_text(RT % status)
        rt.chmod(0o755)
        program = (f"import sys; sys.path.insert(0, {str(ROOT / 'tools')!r}); import pathlib, rt_build; "
                   f"sys.exit(rt_build.build({how!r}, 'listing', pathlib.Path({str(self.root)!r})))")
        command = [sys.executable, "-B", "-c", program]
        if terminal:
            return on_a_terminal(command, env=self.environment)
        done = subprocess.run(command, capture_output=True, text=True, check=False, env=self.environment)
        return done.returncode, done.stdout + done.stderr

    def test_on_a_terminal(self):
        for how in "lib", "run":
            status, said = self.build(0, terminal=True, how=how)
            self.assertEqual(status, 0)
            self.assertRegex(said, r"^(\rlisting: 2 of at most 3 crates proved, \d s)+" + GONE)

    def test_a_failure(self):
        """What rt said last is shown."""
        for how in "lib", "run":
            status, said = self.build(3, terminal=True, how=how)
            self.assertEqual(status, 3)
            self.assertTrue(said.endswith(f"rt: chose --jobs 2 for listing\r\nthe last words of {how} in listing\r\n"), said)
            self.assertNotIn("what the program prints", said)

    def test_elsewhere(self):
        for how in "lib", "run":
            status, said = self.build(3, terminal=False, how=how)
            self.assertEqual((status, said.splitlines()[-2:]),
                             (3, ["rt: chose --jobs 2 for listing", f"the last words of {how} in listing"]))
            self.assertNotIn("what the program prints", said)


class Run(unittest.TestCase):
    ROUNDS = 15

    def test_rounds(self):
        """./relay run on a script that comes slowly; the listing goes to a file."""
        with tempfile.TemporaryFile() as out:
            read, write = os.pipe()
            slow = (f"import os, time; os.write({write}, {N2!r})\n"
                    f"for _ in range({self.ROUNDS}): time.sleep(0.4); os.write({write}, {GOOD_ROUND!r})")
            with subprocess.Popen([sys.executable, "-B", "-c", slow], pass_fds=[write]):
                os.close(write)
                status, said = on_a_terminal([ROOT / "relay", "run", "-"], stdin=read, stdout=out)
            os.close(read)
            out.seek(0)
            self.assertEqual((status, out.read()), (0, extended_listing(N2 + GOOD_ROUND * self.ROUNDS)))
            self.assertRegex(said, r"^(\rrun: \d+ rounds)+" + GONE)


if __name__ == "__main__":
    unittest.main()
