"""./relay run: extended scripts beside the model, scripts beside ./relay listing, and its words for a bad line."""

import collections
import pathlib
import random
import re
import tempfile
import unittest

from library.formats import SIZES
from model import listing, malformed, scripts
from model.bulletins import Bulletin
from model.extended import extended_listing
from model.malformed import GOOD_POST, GOOD_ROUND, N2
from program.damaged import damaged
from relay_command import ROOT, run

from relay import groups, library, run as command  # from tools, which relay_command puts on the path

DOCUMENT = (ROOT / "docs" / "EXTENDED-SCRIPTS.md").read_bytes()
MALFORMED = b"     0 X  0 11 0        0        0\nEND\n"

# A malformed second line of a group of two, and what is said of it.
WORDS = {
    b"P        0        2        7     100":
        "the line has 36 columns where P has 37, 46 or 55: the letter and 4, 5 or 6 numbers of nine columns",
    b"P        0        2        7      100        0        0        0":
        "the line has 64 columns where P has 37, 46 or 55: the letter and 4, 5 or 6 numbers of nine columns",
    b"P        0        2        7      100        0       -1":
        "number in columns 47 to 55 has a minus, which only an argument may have",
    b"P        0        2        7      100       -1":
        "number in columns 38 to 46 has a minus, which only an argument may have",
    b"P        0        2        7      100       01": "number in columns 38 to 46 has a leading zero",
    b"P        0        2        7      100         ": "number in columns 38 to 46 is blank",
    b"P        0        2       -7      100        1":
        "number in columns 20 to 28 has a minus, which only an argument may have",
    b"B        0        7": "the line has 19 columns where B has 28: the letter and 3 numbers of nine columns",
    b"B        0        7        7        7":
        "the line has 37 columns where B has 28: the letter and 3 numbers of nine columns",
    b"B       -1        7        7": "number in columns 2 to 10 has a minus, which only an argument may have",
    b"B        0       -7        7": "number in columns 11 to 19 has a minus, which only an argument may have",
    b"B        0        7       -7": "number in columns 20 to 28 has a minus, which only an argument may have",
    b"B        0        7       07": "number in columns 20 to 28 has a leading zero",
    b"B        0                 7": "number in columns 11 to 19 is blank",
    b"B        0        7       +7": "number in columns 20 to 28 has '+' in it, which is no digit",
    b"b        0        7        7": "the line begins with 'b'; its letter is N, P, R or B",
    b"D        0": "the line begins with 'D'; its letter is N, P, R or B",
    b"R        2        1        1": "the line has 28 columns where R has 19: the letter and 2 numbers of nine columns",
    b"N        2        1": "a second N; it stands once, on the first line",
}


def listed(script, limit=command.LIMIT, size=1 << 16, edition=0):
    """What is printed, in this process; the script comes in parts."""
    reader, printed = command.RunReader(limit, edition), []
    for at in range(0, len(script), size):
        reader.read(script[at:at + size])
        printed.append(reader.taken())
        if reader.fault:
            break
    else:
        reader.close()
    return ("".join(printed) + command.ending(reader)).encode()


def given(*arguments, script):
    """Exit status, standard output and standard error for a script on standard input."""
    return run("run", *arguments, "-", given=script)


class Extended(unittest.TestCase):
    def test_beside_the_model(self):
        """Both desks, numbers of none, and every limit."""
        refusals = set()
        for seed in range(60):
            limit = scripts.seeded_limit(seed)
            script = scripts.script_of(*scripts.seeded_desks(seed))
            printed = listed(script, limit)
            self.assertEqual(printed, extended_listing(script, limit), seed)
            refusals |= {int(one) for one in re.findall(rb"(?m)^ *\d+ X...(...)", printed)}
        self.assertEqual(refusals, {1, 3, 4, 15})

    def test_desks_matter(self):
        """Scripts that differ in desks alone are listed otherwise."""
        other = 0
        for seed in range(40):
            n, calls = scripts.seeded_desks(seed)
            base = [call._replace(desk=0) if isinstance(call, scripts.PostLine) else call for call in calls]
            other += extended_listing(scripts.script_of(n, calls)) != extended_listing(scripts.script_of(n, base))
        self.assertGreater(other, 20)

    def test_channels(self):
        """Both editions with channels, those at their limits and numbers of none."""
        refusals, channels = {0: set(), 1: set()}, set()
        for seed in range(60):
            script = scripts.script_of(*scripts.seeded_channels(seed))
            for edition, met in refusals.items():
                printed = listed(script, edition=edition)
                self.assertEqual(printed, extended_listing(script, edition=edition), (seed, edition))
                met |= {int(one) for one in re.findall(rb"(?m)^ *\d+ X...(...)", printed)}
                channels |= {(edition, int(one)) for one in re.findall(rb"(?m)^ *\d+ [AED].{26}(....)$", printed)}
        self.assertEqual(refusals, {0: {1, 4, 15, 17}, 1: {1, 3, 4, 15, 17}})
        self.assertEqual({edition for edition, _ in channels}, {1})
        self.assertGreaterEqual({channel for _, channel in channels}, {1, 200})

    def test_no_channels(self):
        """A post without a channel in edition 1 is refused with 17."""
        self.assertEqual(listed(N2 + GOOD_POST, edition=1), b"     0 X  0 17 0        0        0\nEND\n")

    def test_in_parts(self):
        script = scripts.script_of(*scripts.seeded_desks(5))
        for size in (1, 2, 7, 46, 47, 1_000):
            self.assertEqual(listed(script, size=size), extended_listing(script), size)

    def test_damaged(self):
        for seed in range(120):
            rng = random.Random(f"damaged {seed}")
            script = damaged(rng, scripts.script_of(*scripts.seeded_desks(rng.randrange(1_000))))
            self.assertEqual(listed(script), extended_listing(script), script)

    def test_command(self):
        for seed in range(6):
            script = scripts.script_of(*scripts.seeded_desks(seed))
            self.assertEqual(given(script=script), (0, extended_listing(script).decode(), ""))
            self.assertEqual(given("--limit", "1", script=script), (0, extended_listing(script, 1).decode(), ""))

    def test_a_file(self):
        example = ROOT / "examples" / "two-desks.script"
        self.assertEqual(run("run", example), (0, extended_listing(example.read_bytes()).decode(), ""))

    def test_sizes(self):
        """The bytes that the command lends are as many as the header says."""
        for name in ("GROUP", "REPORT", "ROUND", "BULLETINS", "SHOWN", "ROUND_SHOWN"):
            self.assertEqual(getattr(library, f"{name}_BYTES"), SIZES[f"{name}_BYTES"], name)


SHOWN = re.compile(rb"(?m)^([ \d]{6}) B([ \d]{3})([ \d]{3})([ \d]{11})([ \d]{9})$")


def shown(printed):
    """The lines of bulletins: round, station, issuer, tag and event."""
    return [tuple(map(int, found)) for found in SHOWN.findall(printed)]


def edits(printed):
    """The lines that are neither of bulletins nor refusals."""
    return [line for line in printed.splitlines() if line[7:8] not in (b"B", b"X")]


def refusals_after(script, printed):
    """The refusals that are printed, without those that the script's posts alone have."""
    posts = b"".join(line for line in script.splitlines(keepends=True) if line[:1] != b"B")
    refused = lambda text: collections.Counter(int(one) for one in re.findall(rb"(?m)^ *\d+ X...(...)", text))
    return refused(printed) - refused(extended_listing(posts))


def of_two(*lines):
    """A script of two stations."""
    return N2 + b"".join(scripts.script_line(line[:1].encode(), map(int, line[1:].split())) for line in lines)


class Bulletins(unittest.TestCase):
    def test_beside_the_model(self):
        """Both editions; bulletins of several issuers, more than four, tags issued again, events that are none."""
        refused, met, most = collections.Counter(), [], 0
        for seed in range(60):
            script = scripts.script_of(*scripts.seeded_bulletins(seed))
            for edition in (0, 1):
                printed = listed(script, edition=edition)
                self.assertEqual(printed, extended_listing(script, edition=edition), (seed, edition))
            refused += refusals_after(script, listed(script))
            met += shown(printed)
            at_once = collections.Counter((u, p) for u, p, issuer, *_ in shown(printed) if p != issuer)
            most = max(most, *at_once.values(), 0)
        self.assertEqual(set(refused), {1, 4, 19})
        self.assertGreaterEqual({tag for *_, tag, _ in met}, {0, 999_999_999})
        self.assertGreaterEqual({event for *_, event in met}, {1, 99_999_999})
        self.assertGreater(most, 20)

    def test_nothing_else_changes(self):
        """What is taken, aired, ended and started is that of the script without bulletins."""
        for seed in range(30):
            n, calls = scripts.seeded_bulletins(seed)
            script = scripts.script_of(n, calls)
            without = scripts.script_of(n, [call for call in calls if not isinstance(call, Bulletin)])
            self.assertEqual(edits(listed(script, edition=1)), edits(listed(without, edition=1)), seed)

    def test_by_hand(self):
        """The issuer shows at once, the other in the next round that it hears, by issuer and then tag."""
        script = of_two("R 0 0", "B 0 10 7", "B 0 9 8", "B 1 10 5", "R 0 1", "R 2 1", "B 0 9 7", "B 2 1 7", "B 1 1 0")
        self.assertEqual(shown(listed(script)), [(1, 0, 0, 10, 7), (1, 0, 0, 9, 8), (1, 1, 1, 10, 5), (2, 1, 0, 9, 8),
                                                 (2, 1, 0, 10, 7), (3, 0, 1, 10, 5)])
        self.assertEqual(listed(script)[-4 - 3 * 35:], b"     3 X  0 19 0        0        0\n"
                         b"     3 X  0  1 0        0        0\n     3 X  1  4 0        0        0\nEND\n")

    def test_five(self):
        """The fifth of an issuer is refused with 19, before and after rounds; another issuer has four of its own."""
        issues = [f"B 1 {tag} 7" for tag in (4, 3, 2, 1)]
        printed = listed(of_two(*issues, "B 1 5 7", "R 2 0", "B 1 6 7", "B 0 5 7"))
        self.assertEqual(shown(printed)[4:], [(1, 0, 1, tag, 7) for tag in (1, 2, 3, 4)] + [(1, 0, 0, 5, 7)])
        self.assertEqual(printed.count(b" X  1 19 0        0        0\n"), 2)

    def test_after_other_lines(self):
        """A station's bulletins come after what else it did in the round, and before the next station."""
        printed = listed(of_two("P 0 2 7 100", "R 2 1", "B 1 1 7", "R 2 1")).splitlines()
        at = printed.index(b"     2 B  0  1          1        7")
        near = [line[:11] for line in printed[at - 1:at + 2]]
        self.assertEqual(near, [b"     2 D  0", b"     2 B  0", b"     2 E  1"])

    def test_no_column_runs_over(self):
        """Any tag of 32 bits would fit."""
        line = groups.shown_line(999_999, 15, 15, 2 ** 32 - 1, 99_999_999)
        self.assertEqual(line, "999999 B 15 15 4294967295 99999999\n")

    def test_damaged(self):
        for seed in range(120):
            rng = random.Random(f"damaged bulletins {seed}")
            script = damaged(rng, scripts.script_of(*scripts.seeded_bulletins(rng.randrange(1_000))))
            self.assertEqual(listed(script), extended_listing(script), script)

    def test_the_first_line(self):
        status, text, words = given(script=b"B        0        7        7\n" + N2)
        said = "the line begins with 'B'; the first line is N with the number of stations"
        self.assertEqual((status, text, words), (1, MALFORMED.decode(), f"relay run: standard input, line 1: {said}\n"))

    def test_the_listing_program_has_none(self):
        """To the listing program, and to a plan, a B line is malformed."""
        script = of_two("B 0 7 7")
        self.assertEqual(listing.listing(script), MALFORMED)
        status, _, words = run("forecast", "-", given=script)
        said = "the line begins with 'B'; its letter is N, P or R"
        self.assertEqual((status, words), (1, f"relay forecast: standard input, line 2: {said}\n"))

    def test_a_file(self):
        example = ROOT / "examples" / "bulletins.script"
        self.assertEqual(run("run", example), (0, extended_listing(example.read_bytes()).decode(), ""))
        self.assertGreater(len(shown(extended_listing(example.read_bytes()))), 6)


class Scripts(unittest.TestCase):
    """A script without desks is listed as ./relay listing does it."""

    def test_drawn(self):
        for seed in range(12):
            script = scripts.seeded_script(seed)
            self.assertEqual(given(script=script), run("listing", "-", given=script), seed)

    def test_malformed(self):
        """What is printed is the same; the command says more on standard error, and its status is 1."""
        for seed in range(12):
            rng = random.Random(f"malformed {seed}")
            script = damaged(rng, scripts.seeded_script(rng.randrange(1_000)))
            self.assertEqual(given(script=script)[1], run("listing", "-", given=script)[1], script)

    def test_beside_the_model(self):
        for seed in range(50):
            script = scripts.seeded_script(seed)
            self.assertEqual(listed(script), listing.listing(script), seed)
        for name, script, _ in malformed.malformed_scripts():
            if not re.search(rb"(?m)^P(.{45}|.{54})$", script):
                self.assertEqual(listed(script), listing.listing(script), name)


class Errors(unittest.TestCase):
    def test_words(self):
        for line, words in WORDS.items():
            self.assertEqual(given(script=N2 + line + b"\n" + GOOD_ROUND * 2),
                             (1, MALFORMED.decode(), f"relay run: standard input, line 2: {words}\n"), line)

    def test_the_file_is_named(self):
        with tempfile.TemporaryDirectory() as folder:
            script = pathlib.Path(folder, "my.script")
            script.write_bytes(N2 + GOOD_ROUND * 2 + b"Q\n")
            status, text, words = run("run", script)
            said = f"relay run: {script}, line 4: the line begins with 'Q'; its letter is N, P, R or B\n"
            self.assertEqual((status, words), (1, said))
            self.assertEqual(text, extended_listing(script.read_bytes()).decode())

    def test_the_end(self):
        self.assertEqual(given(script=b"")[::2], (1, "relay run: standard input, line 1: the script is empty; "
                                                     "its first line is N with the number of stations\n"))
        self.assertEqual(given(script=N2 + GOOD_POST[:-1])[::2],
                         (1, "relay run: standard input, line 2: the last line has no line end\n"))

    def test_limits(self):
        for limit in ("0", "33", "4294967295"):
            said = f"relay run: refused with 13: a limit is 1 to 32, not {limit}\n"
            self.assertEqual(given("--limit", limit, script=N2), (1, "", said))

    def test_editions(self):
        for edition in ("2", "255", "256", "4294967295"):
            self.assertEqual(given("--edition", edition, script=N2), (1, "", f"relay run: refused with 17: an edition is 0 or 1, not {edition}\n"))
        self.assertEqual(given("--edition", "2", "--limit", "0", script=N2), (1, "", "relay run: refused with 13: a limit is 1 to 32, not 0\n"))

    def test_wrong_use(self):
        for arguments in ((), ("a", "b"), ("--limit", "x", "-"), ("--limit", "-1", "-"), ("--limit", "4294967296", "-"),
                          ("--edition", "x", "-"), ("--desk", "1", "-")):
            status, text, words = run("run", *arguments)
            self.assertEqual((status, text), (2, ""))
            self.assertIn("usage: ./relay", words)
        self.assertEqual(run("run", "/nowhere"), (2, "", "relay run: cannot read /nowhere: No such file or directory\n"))


class Document(unittest.TestCase):
    def test_examples(self):
        """Each block marked `extended` has the listing after it, by the model and by the command."""
        found = re.findall(rb"(?ms)^```(extended|extended edition 1|listing)\n(.*?)^```$", DOCUMENT)
        self.assertGreaterEqual(len(found), 8)
        self.assertEqual([mark.split()[0] for mark, _ in found], [b"extended", b"listing"] * (len(found) // 2))
        for (mark, script), (_, printed) in zip(found[::2], found[1::2]):
            edition = len(mark.split()) // 3
            self.assertEqual(extended_listing(script, edition=edition), printed, script)
            self.assertEqual(given("--edition", str(edition), script=script), (0, printed.decode(), ""), script)


if __name__ == "__main__":
    unittest.main()
