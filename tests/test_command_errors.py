"""Errors of ./relay: whatever file or number it is given, it says where and what was expected, in plain words."""

import contextlib
import os
import pathlib
import pty
import re
import subprocess
import tempfile
import tty
import unittest

from model import lines, listing
from model.malformed import N2
from program.command import SECONDS, chosen
from relay_command import ROOT, run

from relay import command, faults  # from tools, which relay_command puts on the path

PLAN, LISTING = ROOT / "examples" / "five-stations.plan", ROOT / "examples" / "evening.listing"
FILE = "FILE"
USES = (  # every place at which a file is read
    ("listing", FILE), ("run", FILE), ("forecast", FILE), ("merge", FILE, PLAN), ("merge", PLAN, FILE),
    ("ask", FILE, "0 1 1"), ("ask", PLAN, "--questions", FILE), ("contest", FILE), ("compare", FILE, "0", LISTING, "0"),
    ("compare", LISTING, "0", FILE, "0"), ("screen", FILE), ("screen", PLAN, FILE))
READS_NONE = {"load", "install"}
SCRIPT = (ROOT / "examples" / "two-stations.script").read_bytes()
MALFORMED = {
    "empty": b"", "zeros": bytes(500), "random": bytes(range(255, -1, -1)) * 20, "one long line": b"7" * 5_000,
    "no line end": b"N        2\nR        2        1", "byte order mark": b"\xef\xbb\xbfN        2\n",
    "carriage returns": b"N        2\r\nR        2        1\r\n", "words": b"the plan of tonight\n"}


def named(use, file):
    return [file if word is FILE else word for word in use]


def head(use):
    """What the words begin with; the listing is a command of its own."""
    return "listing" if use[0] == "listing" else f"relay {use[0]}"


@contextlib.contextmanager
def closed_pipe():
    """The writing end of a pipe whose reading end is closed."""
    read, write = os.pipe()
    os.close(read)
    try:
        yield write
    finally:
        os.close(write)


class Files(unittest.TestCase):
    def setUp(self):
        self.folder = tempfile.TemporaryDirectory()
        self.addCleanup(self.folder.cleanup)
        self.file = pathlib.Path(self.folder.name, "given")

    def test_every_subcommand_is_tried(self):
        self.assertEqual({use[0] for use in USES} | READS_NONE, set(command.subcommands()))

    def test_not_to_be_read(self):
        loop = pathlib.Path(self.folder.name, "loop")
        loop.symlink_to(loop)
        files = {"/nowhere": "No such file or directory", self.folder.name: "Is a directory",
                 str(loop): "Too many levels of symbolic links", "/proc/self/mem": "Input/output error"}
        if os.geteuid():
            self.file.touch(0)
            files[str(self.file)] = "Permission denied"
        for use in USES:
            for file, words in files.items():
                if use[0] != "listing" or file != "/proc/self/mem":     # which can be opened, and is empty at 0
                    self.assertEqual(run(*named(use, file)), (2, "", f"{head(use)}: cannot read {file}: {words}\n"))

    def test_malformed(self):
        """The file and the line are named, and what is expected; the words stay short."""
        for name, text in MALFORMED.items():
            self.file.write_bytes(text)
            for use in USES:
                status, _, words = run(*named(use, self.file))
                with self.subTest(name, use=use):
                    self.assertEqual(status, 0 if use[0] == "listing" else faults.Wrong.status)
                    self.assertRegex(words, rf"^{head(use)}: {re.escape(str(self.file))}(, line \d+)?: .{{12,420}}\n$")
                    if name != "empty":
                        self.assertIn(", line ", words)

    def test_no_name(self):
        for use in USES[1:]:
            self.assertEqual(run(*named(use, "")), (2, "", f"{head(use)}: cannot read '': No such file or directory\n"))
        self.assertEqual(run("forecast", PLAN, "--picture", ""),
                         (2, "", "relay forecast: cannot write '': No such file or directory\n"))


class Use(unittest.TestCase):
    def refused(self, *arguments, given=b""):
        status, text, words = run(*arguments, given=given)
        self.assertEqual((status, text), (2, ""))
        return words.partition(": ")[2].rstrip()

    def test_standard_input_twice(self):
        plan = PLAN.read_bytes()
        self.assertEqual(self.refused("merge", "-", "-", given=plan),
                         "standard input can be one of the two plans, not both")
        self.assertEqual(self.refused("ask", "-", "--questions", "-", given=plan),
                         "standard input can be the plan or the questions, not both")
        self.assertEqual(self.refused("contest", "-", "--play"),
                         "--play reads your picks from standard input, so the contest comes from a file")

    def test_no_question(self):
        self.assertEqual(self.refused("ask", PLAN),
                         "there is no question; give one as '0 4 2', or a file of them with --questions")
        status, _, words = run("ask", PLAN, "--questions", "-", given=b"# none\n\n")
        self.assertEqual(status, 1)
        self.assertRegex(words, "^relay ask: standard input: there is no question in it; a question is three numbers")

    def test_numbers(self):
        """What is no number is named, with the numbers that are taken, below the subcommand's usage."""
        for arguments, words in (
                (("run", "-", "--limit", "x"), "argument --limit: 'x' is no number from 0 to 4,294,967,295"),
                (("run", "-", "--edition", "-1"), "argument --edition: '-1' is no number from 0 to 4,294,967,295"),
                (("load", "1", "two", "3"), "argument N: 'two' is no number from 0 to 4,294,967,295"),
                (("forecast", PLAN, "--from", "2049"), "argument --from: '2049' is no number from 0 to 2,048"),
                (("forecast", PLAN, "--behind", "32"), "argument --behind: '32' is no number from 0 to 31"),
                (("compare", LISTING, "one", LISTING, "0"), "argument STATION: 'one' is no station number, 0 to 15"),
                (("screen", PLAN, "--port", "65536"), "argument --port: '65536' is no port: a number from 0 to 65535"),
                (("merge", PLAN, PLAN, "--csv"), "unrecognized arguments: --csv")):
            status, text, said = run(*arguments)
            self.assertEqual((status, text), (2, ""))
            self.assertRegex(said, rf"^usage: \./relay {arguments[0]} ")
            self.assertEqual(said.splitlines()[-1], f"./relay {arguments[0]}: error: {words}")


class Streams(unittest.TestCase):
    """Standard streams that are closed, or that take no more."""

    def shell(self, line):
        done = subprocess.run(line, shell=True, cwd=ROOT, capture_output=True, text=True, check=False)
        return done.returncode, done.stdout, done.stderr

    def test_output_that_fails(self):
        for line in ("forecast examples/five-stations.plan", "contest examples/three-stations.contest",
                     "merge examples/first-carrier.script examples/second-carrier.plan", "load 1 2 30000",
                     "compare examples/evening.listing 0 examples/evening.listing 1", "run examples/two-desks.script",
                     "screen examples/five-stations.plan"):
            head = f"relay {line.split()[0]}: "
            for how, words in ((">/dev/full", "cannot write standard output: No space left on device"),
                               (">&-", "standard output is closed")):
                for unbuffered in ("", "1"):
                    self.assertEqual(self.shell(f"PYTHONUNBUFFERED={unbuffered} ./relay {line} {how}"),
                                     (2, "", f"{head}{words}\n"))
        self.assertEqual(self.shell("./relay listing >&-"), (2, "", "relay listing: standard output is closed\n"))
        for how in (">/dev/full", ">&-"):
            self.assertEqual(self.shell(f"./listing {how}"), (2, "", "relay_listing: cannot write\n"))

    def test_a_pipe_that_no_one_reads(self):
        for line in ("./listing", "./relay listing"):
            with closed_pipe() as pipe:
                done = subprocess.run(line.split(), cwd=ROOT, stdout=pipe, stderr=subprocess.PIPE, check=False)
            self.assertEqual((done.returncode, done.stderr), (2, b""))

    def test_input_that_is_closed(self):
        for line in ("forecast -", "run -", "contest -", "compare - 0 - 0", "merge examples/five-stations.plan -"):
            self.assertEqual(self.shell(f"./relay {line} <&-"),
                             (2, "", f"relay {line.split()[0]}: cannot read standard input: it is closed\n"))

    def test_words_that_no_one_takes(self):
        """They do not go to standard output instead."""
        self.assertEqual(self.shell("./relay forecast /nowhere 2>&-"), (2, "", ""))
        status, text, _ = self.shell("printf 'N        2\\nR\\n' | ./relay listing - 2>&-")
        self.assertEqual((status, text), (0, "     0 X  0 11 0        0        0\nEND\n"))


class Program(unittest.TestCase):
    """The listing program by itself: a read or a write that fails ends it with status 2, without the last line."""

    def ended(self, **streams):
        """Exit status, standard output where it is a pipe, and standard error."""
        done = subprocess.run([chosen()], stderr=subprocess.PIPE, check=False, timeout=SECONDS, **streams)
        return done.returncode, done.stdout, done.stderr

    def test_whole(self):
        for script in (SCRIPT, N2):
            self.assertEqual(self.ended(input=script, stdout=subprocess.PIPE), (0, listing.listing(script), b""))

    def test_a_full_device(self):
        """Whether the first lines cannot be written, or the last one, which is all that there is."""
        for script in (SCRIPT, N2):
            with open("/dev/full", "wb") as full:
                self.assertEqual(self.ended(input=script, stdout=full), (2, None, b"relay_listing: cannot write\n"))

    def test_a_pipe_that_no_one_reads(self):
        for script in (SCRIPT, N2):
            with closed_pipe() as pipe:
                self.assertEqual(self.ended(input=script, stdout=pipe), (2, None, b""))

    def test_a_read_that_fails(self):
        """At once, as of a folder, or after some lines, as of a terminal whose other side is closed."""
        folder = os.open("/", os.O_RDONLY)
        self.addCleanup(os.close, folder)
        said = b"relay_listing: cannot read\n"
        self.assertEqual(self.ended(stdin=folder, stdout=subprocess.PIPE), (2, b"", said))
        terminal, other = pty.openpty()
        self.addCleanup(os.close, terminal)
        tty.setraw(other)
        os.write(other, SCRIPT)
        os.close(other)
        self.assertEqual(self.ended(stdin=terminal, stdout=subprocess.PIPE),
                         (2, listing.listing(SCRIPT).removesuffix(lines.END_LINE), said))


if __name__ == "__main__":
    unittest.main()
