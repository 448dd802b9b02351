"""The command ./relay: its help, its errors, and how it finds or makes the library."""

import os
import pathlib
import shutil
import subprocess
import sys
import tempfile
import unittest

from model import listing
from model.malformed import GOOD_ROUND, N2
from relay_command import ROOT, example_of, on_a_terminal, run

from relay import command, faults  # from tools, which relay_command puts on the path

SERVES = "screen",      # until it is interrupted: tests/test_screen.py runs its example
LIBRARY = "#include <stdint.h>\nuint32_t relay_sum(uint32_t one, uint32_t two) { return %d * (one + two); }\n"


class Help(unittest.TestCase):
    def test_subcommands(self):
        status, text, words = run("--help", env={**os.environ, "COLUMNS": "80"})
        self.assertEqual((status, words), (0, ""))
        for name in command.subcommands():
            self.assertRegex(text, rf"(?m)^    {name} ")
        self.assertEqual(example_of(text), ["./relay listing examples/two-stations.script"])
        self.fits(text)
        for number, _ in faults.STATUSES:
            self.assertIn(f" {number} ", text[text.index("exit status:"):])

    def fits(self, text):
        """A screen is 80 columns and 24 lines."""
        self.assertLessEqual(max(map(len, text.splitlines())), 80, text)
        self.assertLessEqual(len(text.splitlines()), 24, text)

    def test_examples(self):
        """Each help fits a screen, and its example works from the repository's top and prints something."""
        with tempfile.TemporaryDirectory() as home:
            for words in ((), *((name,) for name in command.subcommands())):
                status, text, said = run(*words, "--help", env={**os.environ, "COLUMNS": "80"})
                self.assertEqual((status, said), (0, ""))
                self.fits(text)
                for line in () if words == SERVES else example_of(text):
                    done = subprocess.run(line, shell=True, cwd=ROOT, capture_output=True, stdin=subprocess.DEVNULL,
                                          check=False, env={**os.environ, "HOME": home})
                    self.assertEqual((done.returncode, done.stderr), (0, b""), line)
                    self.assertGreater(done.stdout.count(b"\n"), 0, line)

    def test_wrong_use(self):
        for arguments in ((), ("nothing",), ("listing", "a", "b"), ("--version",), ("listing", "--picture", "x")):
            status, text, words = run(*arguments)
            self.assertEqual((status, text), (2, ""))
            self.assertIn("usage: ./relay", words)


class Listing(unittest.TestCase):
    def test_same_as_listing(self):
        example, shown = ROOT / "examples" / "five-stations.script", []
        with tempfile.TemporaryDirectory() as folder:
            model = pathlib.Path(folder, "model")
            model.write_text(f"#!/bin/sh\nexec {sys.executable} -B {ROOT / 'tests' / 'model_listing.py'}\n")
            model.chmod(0o755)
            program = {**os.environ, "RELAY_LISTING_PROGRAM": str(model)}
            for arguments, given in (((example,), b""), (("-",), example.read_bytes()), ((), b""),
                                     (("-",), N2 + GOOD_ROUND + b"\n"), (("/nowhere",), b"")):
                done = subprocess.run([ROOT / "listing", *arguments], input=given, capture_output=True, check=False,
                                      env=program)
                self.assertEqual(run("listing", *arguments, given=given, env=program),
                                 (done.returncode, done.stdout.decode(), done.stderr.decode()))
                shown.append(done.stdout)
        self.assertEqual(shown[0], listing.listing(example.read_bytes()))


class Errors(unittest.TestCase):
    def test_colours(self):
        """Only on a terminal, and not where NO_COLOR is set."""
        plain = "relay forecast: cannot read /nowhere: No such file or directory\n"
        self.assertEqual(run("forecast", "/nowhere"), (2, "", plain))
        red = plain.replace("relay forecast:", "\x1b[31mrelay forecast:\x1b[0m")
        for value, words in (("", red), ("1", plain)):
            said = on_a_terminal([ROOT / "relay", "forecast", "/nowhere"], env={**os.environ, "NO_COLOR": value})
            self.assertEqual(said, (2, words.replace("\n", "\r\n")))

    def test_broken_pipe(self):
        """No one reads: no words, and the status of a command that SIGPIPE ends."""
        read, write = os.pipe()
        os.close(read)
        done = subprocess.run([ROOT / "relay", "forecast", ROOT / "examples" / "five-stations.plan"], stdout=write,
                              stderr=subprocess.PIPE, check=False)
        os.close(write)
        self.assertEqual((done.returncode, done.stderr), (141, b""))


class Library(unittest.TestCase):
    """The library in a folder of its own, made of an archive with one function."""

    def setUp(self):
        self.folder = tempfile.TemporaryDirectory()
        self.root = pathlib.Path(self.folder.name)
        shutil.copytree(ROOT / "tools", self.root / "tools", ignore=shutil.ignore_patterns("__pycache__"))
        (self.root / "bin").mkdir()
        self.archive = self.root / "crates" / "relay" / "out" / "librelay.a"
        self.environment = {name: value for name, value in os.environ.items() if not name.startswith("RELAY_")}

    def tearDown(self):
        self.folder.cleanup()

    def build(self, factor):
        """What rt does in these tests."""
        self.archive.parent.mkdir(parents=True, exist_ok=True)
        (self.root / "sum.c").write_text(LIBRARY % factor)
        subprocess.run(["gcc", "-c", "-fPIC", "-o", "sum.o", "sum.c"], cwd=self.root, check=True)
        subprocess.run(["ar", "rcs", self.archive, "sum.o"], cwd=self.root, check=True)

    def call(self, name="relay_sum", **environment):
        """What a call gives, or the fault's words, and standard error."""
        program = ("import sys; sys.path.insert(0, 'tools'); from relay import faults, library\n"
                   f"try: print(library.call('{name}', 3, 4))\nexcept faults.Missing as wrong: print(wrong)")
        done = subprocess.run([sys.executable, "-B", "-c", program], cwd=self.root, capture_output=True, text=True,
                              check=False, env={**self.environment, **environment})
        return done.stdout.strip(), done.stderr

    def test_made_and_made_anew(self):
        self.build(1)
        self.assertEqual(self.call(), ("7", ""))
        made = self.archive.with_suffix(".so")
        first = made.stat().st_mtime_ns
        self.assertEqual(self.call(PATH="/nowhere"), ("7", ""))  # no compiler is needed again
        self.build(2)
        os.utime(self.archive, ns=(first + 1, first + 1))
        self.assertEqual(self.call(), ("14", ""))

    def test_another_archive(self):
        self.build(1)
        other = self.root / "other.a"
        self.archive.rename(other)
        self.assertEqual(self.call(RELAY_ARCHIVE=str(other)), ("7", ""))
        self.assertEqual(self.call(RELAY_LIBRARY=str(other.with_suffix(".so"))), ("7", ""))
        self.assertEqual(self.call(RELAY_ARCHIVE="/nowhere.a")[0], "there is no archive /nowhere.a")
        self.assertIn("cannot load the library", self.call(RELAY_LIBRARY="/nowhere.so")[0])

    def test_what_is_missing(self):
        empty = str(self.root / "bin")
        self.assertEqual(self.call(PATH=empty)[0], "this machine lacks 'rt', the command of the Rattle toolchain")
        self.build(1)
        self.assertEqual(self.call(PATH=empty)[0], "this machine lacks 'gcc': install Debian's package gcc")
        self.assertIn("has no relay_product: 'rt lib' in crates/relay builds it anew", self.call("relay_product")[0])
        self.archive.write_text("no archive")
        self.assertIn("gcc cannot make a shared object of", self.call()[0])

    def test_the_archive_is_built(self):
        self.build(1)
        kept = self.root / "kept.a"
        self.archive.rename(kept)
        rt = self.root / "bin" / "rt"
        rt.write_text(f'#!/bin/sh\necho "rt $* in ${{PWD#{self.root.resolve()}/}}"; cp {kept} {self.archive}\n')
        rt.chmod(0o755)
        answer, words = self.call(PATH=f"{rt.parent}:{os.environ['PATH']}")
        self.assertEqual(answer, "7")
        self.assertEqual(words.splitlines(), [
            "relay: crates/relay/out/librelay.a is missing; "
            "'rt lib' in crates/relay proves and builds it, which takes some minutes", "rt lib in crates/relay"])


if __name__ == "__main__":
    unittest.main()
