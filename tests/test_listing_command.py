"""The command ./listing: what it says on standard error, with the model in the program's place."""

import os
import pathlib
import pty
import random
import shutil
import subprocess
import sys
import tempfile
import time
import tracemalloc
import unittest

from model import lines, listing, malformed, scripts
from model.malformed import GOOD_POST, GOOD_ROUND, N2
from program.damaged import damaged

ROOT = pathlib.Path(__file__).resolve().parent.parent
sys.path.append(str(ROOT / "tools"))

import script_faults  # noqa: E402

# A malformed line of a group of two, and what is said of it.
WORDS = {
    b"": "the line is empty",
    b"N        2": "a second N; it stands once, on the first line",
    b"Q        2        1": "the line begins with 'Q'; its letter is N, P or R",
    b"\xff        2        1": "the line begins with a byte of hexadecimal FF; its letter is N, P or R",
    b" R       2        1": "the line begins with a byte of hexadecimal 20; its letter is N, P or R",
    b"R        2        1\r": "the line ends with a carriage return (hexadecimal 0D); a line end is the one byte 0A",
    b"R        2": "the line has 10 columns where R has 19: the letter and 2 numbers of nine columns",
    b"P        0        2        7     100": "the line has 36 columns where P has 37: the letter and 4 numbers of nine columns",
    b"R" * 200: "the line has more than 145 columns where R has 19: the letter and 2 numbers of nine columns",
    b"R       02        1": "number in columns 2 to 10 has a leading zero",
    b"R        2       00": "number in columns 11 to 19 has a leading zero",
    b"R        2       -1": "number in columns 11 to 19 has a minus, which only an argument may have",
    b"P       -1        2        7      100": "number in columns 2 to 10 has a minus, which only an argument may have",
    b"P        0        4        7       -0": "number in columns 29 to 37 is minus zero",
    b"P        0        4        7      -05": "number in columns 29 to 37 has a leading zero",
    b"P        0        4        7      --5": "number in columns 29 to 37 has a minus that is not just before its digits",
    b"P        0        4        7        -": "number in columns 29 to 37 has a minus that is not just before its digits",
    b"P        0        2               100": "number in columns 20 to 28 is blank",
    b"P        0        2        7100      ": "number in columns 29 to 37 is not right-justified: spaces come after it",
    b"P        0        2        7      1 0": "number in columns 29 to 37 has a space inside",
    b"P        0        2        7     +100": "number in columns 29 to 37 has '+' in it, which is no digit",
    b"R        2   \t    1": "number in columns 11 to 19 has a byte of hexadecimal 09 in it, which is no digit",
    b"R        2    65536": "number in columns 11 to 19 is 65536; a mask is 0 to 65,535",
}
FIRST_WORDS = {
    b"": "the line is empty",
    b"P        0        2        7      100": "the line begins with 'P'; the first line is N with the number of stations",
    b"N        0": "number in columns 2 to 10 is 0; N is 1 to 16",
    b"N       17": "number in columns 2 to 10 is 17; N is 1 to 16",
    b"N": "the line has 1 columns where N has 10: the letter and one number of nine columns",
}


def fault_of(script, size=None):
    """The number of the line that stops the reading and what is said of it, or None; the script is read in parts."""
    reader = script_faults.ScriptReader()
    for at in range(0, len(script), size or len(script) or 1):
        reader.read(script[at:at + (size or len(script))])
        if reader.fault:
            break
    else:
        reader.close()
    return (reader.lines + 1, reader.fault) if reader.fault else None


def model_stop(script):
    """The number of the line at which the model stops reading, or None."""
    n = None
    for number, line in enumerate(listing.split_lines(script), 1):
        command = None if line is None else lines.read_line(line, n)
        if command is None:
            return number
        n = command.n if isinstance(command, lines.SizeLine) else n
    return None


class Faults(unittest.TestCase):
    def test_words(self):
        for line, words in WORDS.items():
            self.assertEqual(fault_of(N2 + GOOD_ROUND + line + b"\n" + GOOD_ROUND), (3, words))
        for line, words in FIRST_WORDS.items():
            self.assertEqual(fault_of(line + b"\n" + GOOD_ROUND), (1, words))
        self.assertEqual(fault_of(b""), (1, "the script is empty; its first line is N with the number of stations"))
        self.assertEqual(fault_of(N2 + GOOD_ROUND[:-1]), (2, "the last line has no line end"))

    def test_every_malformed_form(self):
        for name, script, _ in malformed.malformed_scripts():
            with self.subTest(name):
                number, words = fault_of(script)
                self.assertEqual(number, model_stop(script))
                self.assertGreater(len(words), 5)
                for size in (1, 7):
                    self.assertEqual(fault_of(script, size), (number, words))

    def test_damaged_scripts(self):
        """The same line as the model's, or none, in all of them; many of both."""
        whole = [b"".join(scripts.seeded_script(seed).splitlines(keepends=True)[:12]) for seed in range(24)]
        stopped = 0
        for seed in range(2400):
            rng = random.Random(f"damaged {seed}")
            script = damaged(rng, whole[seed % 24])
            fault = fault_of(script, rng.choice((None, 1, 100)))
            self.assertEqual(fault and fault[0], model_stop(script), script)
            stopped += fault is not None
        self.assertGreater(stopped, 800)
        self.assertLess(stopped, 2200)

    def test_good_scripts(self):
        for seed in range(48):
            self.assertIsNone(fault_of(scripts.seeded_script(seed)))

    def test_a_round_past_the_last(self):
        last = script_faults.LAST_ROUND
        self.assertEqual(last, listing.LAST_ROUND)
        reader = script_faults.ScriptReader()
        reader.read(N2)
        reader.rounds = last - 1
        reader.read(GOOD_ROUND + GOOD_POST)
        self.assertIsNone(reader.fault)
        reader.read(GOOD_ROUND)
        self.assertEqual((reader.lines, reader.fault), (3, "a round past 999,999"))

    def test_little_is_kept(self):
        """Neither of a long script nor of a long line."""
        part = GOOD_POST * 2000
        tracemalloc.start()
        reader = script_faults.ScriptReader()
        reader.read(N2)
        for _ in range(20):
            reader.read(part)
        self.assertEqual(reader.lines, 40_001)
        kept, _ = tracemalloc.get_traced_memory()
        tracemalloc.stop()
        self.assertLess(kept, len(part))
        reader.read(b"R" * 146)
        self.assertIn("more than 145 columns", reader.fault)


class Command(unittest.TestCase):
    """The command in a folder of its own, where the model is the program."""

    @classmethod
    def setUpClass(cls):
        cls.folder = tempfile.TemporaryDirectory()
        cls.root = pathlib.Path(cls.folder.name)
        shutil.copy(ROOT / "listing", cls.root)
        shutil.copytree(ROOT / "tools", cls.root / "tools", ignore=shutil.ignore_patterns("__pycache__"))
        shutil.copytree(ROOT / "examples", cls.root / "examples")
        cls.program = cls.executable("model", f"exec {sys.executable} -B {ROOT / 'tests' / 'model_listing.py'}")
        cls.environment = {**os.environ, "RELAY_LISTING_PROGRAM": str(cls.program)}

    @classmethod
    def tearDownClass(cls):
        cls.folder.cleanup()

    @classmethod
    def executable(cls, name, text):
        path = cls.root / name
        path.write_text(f"#!/bin/sh\n{text}\n")
        path.chmod(0o755)
        return path

    def run_listing(self, *arguments, script=b"", **environment):
        done = subprocess.run([self.root / "listing", *arguments], input=script, capture_output=True, check=False,
                              env={**self.environment, **environment})
        return done.returncode, done.stdout, done.stderr.decode()

    def test_example(self):
        example = (ROOT / "examples" / "two-stations.script").read_bytes()
        expected = 0, listing.listing(example), ""
        self.assertEqual(self.run_listing(), expected)
        self.assertEqual(self.run_listing("-", script=example), expected)
        self.assertEqual(self.run_listing(str(self.root / "examples" / "two-stations.script")), expected)

    def test_a_line_is_explained(self):
        """Standard output is what the program writes, to the byte."""
        for script, words in (
                (N2 + GOOD_ROUND * 5 + b"R       02        1\n" + GOOD_ROUND, "line 7: number in columns 2 to 10 has a leading zero"),
                (N2 + GOOD_ROUND + b"x" * 300_000, "line 3: the line begins with 'x'; its letter is N, P or R"),
                (b"", "line 1: the script is empty; its first line is N with the number of stations"),
                (N2 + GOOD_POST * 5000 + b"\n" + GOOD_ROUND * 5000, "line 5002: the line is empty")):
            self.assertEqual(self.run_listing("-", script=script), (0, listing.listing(script), f"listing: standard input, {words}; the reading stops there\n"))

    def test_no_such_script(self):
        self.assertEqual(self.run_listing("/nowhere"), (2, b"", "listing: cannot read /nowhere: No such file or directory\n"))
        self.assertEqual(self.run_listing("/tmp"), (2, b"", "listing: cannot read /tmp: Is a directory\n"))

    def test_usage(self):
        for arguments in (("a", "b"), ("--help",), ("",)):
            status, output, words = self.run_listing(*arguments)
            self.assertEqual((status, output), (2, b""))
            self.assertIn("usage: ./listing [SCRIPT]", words)

    def test_the_program_is_built(self):
        """Where there is no program yet; here rt is a stand-in that makes it."""
        made = self.root / "crates" / "relay_listing" / "out" / "relay_listing"
        made.parent.parent.mkdir(parents=True)
        tools = self.root / "toolchain"
        tools.mkdir()
        self.executable("toolchain/rt", f'echo "rt $* in ${{PWD#{self.root.resolve()}/}}" >&2; mkdir -p out && cp {self.program} {made}; echo END')
        path = f"{tools}:{os.environ['PATH']}"
        example = (ROOT / "examples" / "two-stations.script").read_bytes()
        status, output, words = self.run_listing("-", script=example, RELAY_LISTING_PROGRAM="", PATH=path)
        self.assertEqual((status, output), (0, listing.listing(example)))
        self.assertEqual(words.splitlines()[0], "listing: crates/relay_listing/out/relay_listing is missing; "
                         "'rt run' in crates/relay_listing proves and builds it, which takes some minutes")
        self.assertEqual(words.splitlines()[1:], ["rt run in crates/relay_listing"])
        self.assertEqual(self.run_listing("-", script=example, RELAY_LISTING_PROGRAM="", PATH=path), (0, output, ""))
        made.unlink()
        self.executable("toolchain/rt", "exit 1")
        status, output, words = self.run_listing(RELAY_LISTING_PROGRAM="", PATH=path)
        self.assertEqual((status, output), (2, b""))
        self.assertIn("listing: there is no program", words)

    def test_the_end_of_the_program(self):
        """Its status is the command's, and a program that reads nothing does no harm."""
        failing, killed = self.executable("failing", "exit 7"), self.executable("killed", "kill -SEGV $$")
        script = N2 + GOOD_ROUND * 20_000
        self.assertEqual(self.run_listing("-", script=script, RELAY_LISTING_PROGRAM=str(failing)), (7, b"", ""))
        self.assertEqual(self.run_listing("-", script=script, RELAY_LISTING_PROGRAM=str(killed)),
                         (139, b"", "listing: the program was ended by signal 11\n"))

    def test_an_endless_script(self):
        """The command stops where the reading stops."""
        early = self.executable("early", "head -c 10; echo END")
        with subprocess.Popen(["sh", "-c", "yes '' | ./listing -"], cwd=self.root, stdout=subprocess.PIPE, stderr=subprocess.PIPE,
                              env={**self.environment, "RELAY_LISTING_PROGRAM": str(early)}) as running:
            output, words = running.communicate(timeout=60)
        self.assertEqual(output[-4:], b"END\n")
        self.assertIn(b"listing: standard input, line 1: the line is empty; the reading stops there\n", words)

    def on_a_terminal(self, pauses):
        """What is said on a terminal while a script comes in with these pauses."""
        terminal, other = pty.openpty()
        with subprocess.Popen([self.root / "listing", "-"], stdin=subprocess.PIPE, stdout=subprocess.PIPE, stderr=other,
                              env=self.environment, bufsize=0) as running:
            os.close(other)
            running.stdin.write(N2 + GOOD_ROUND * 3)
            for pause in pauses:
                time.sleep(pause)
                running.stdin.write(GOOD_ROUND)
            running.stdin.close()
            output = running.stdout.read()
        said = b""
        try:
            while part := os.read(terminal, 4096):
                said += part
        except OSError:
            pass  # the terminal's other side is closed
        os.close(terminal)
        self.assertEqual(output, listing.listing(N2 + GOOD_ROUND * (3 + len(pauses))))
        return said

    def test_progress(self):
        said = self.on_a_terminal((1.5, 0.3))
        self.assertIn(b"\rlisting: 3 rounds", said)
        self.assertIn(b"\rlisting: 4 rounds", said)
        self.assertRegex(said, rb"\r *\r$|\r *\r\r$")
        self.assertEqual(self.on_a_terminal(()), b"")


if __name__ == "__main__":
    unittest.main()
