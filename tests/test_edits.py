"""The edits that the prover must refuse: each says what is wrong and fits its crate, faults that are tried together stand apart, and an error that shows nothing
is noticed."""
import collections
import importlib.machinery
import importlib.util
import pathlib
import tempfile
import unittest

from edits import ROOT, cycles_of, definitions_of, edits, functions_of, public_in, read
from laws import Crate

LOADER = importlib.machinery.SourceFileLoader("check_edits", str(ROOT / "tests" / "check-edits"))
CHECK = importlib.util.module_from_spec(importlib.util.spec_from_loader("check_edits", LOADER))
LOADER.exec_module(CHECK)

NOT_JUDGED = {"relay_bench", "relay_listing"}  # the first promises nothing but safety, the second is a program

# The public functions with fewer than two faults, and why.
FEWER = {
    ("bulletins", "showing", "none_shown"): "sixteen times what the one function of its type gives",
}

# The names that stand twice in a crate, in two files: the like fault of a station's call and of a group's.
TWICE = {("relay", name) for name in ("fresh_limited_edition_1", "fresh_edition_is_limit", "fresh_limited_edition_is_limit")}

FACT = "./proofs/f/Answers.antt:14:13: error: `returns`: expected type `x`, but this has type `y`"
NAME = "./proofs/f/Answers.antt:9:12: error: `cast`: `goal.cast`: module `Rattle.c.proofs.f.Goals` has no `cast` that can be named from here"
FIELD = "./proofs/f/Answers.antt:9:12: error: `again`: record `Rattle.c.proofs.f.Lts.In-loop` has no field `args`"
LOOP = "./proofs/f/Invariants.antt:5:31: error: `invariant-loop-i`: `goal.invariant-loop-i`: module `Rattle.c.proofs.f.Given` has no `invariant-loop-i` that can be named from here"
NOTE = "note: src/lib.rt:3:1: it is not proved that what the function ensures holds when it returns (`returns`)"
RESTS = "./proofs/g/Answers.antt:9:12: error: 1 declaration that depends on `law`, which was not admitted, was not checked: returns"
RESTS_BELOW = "./proofs/Laws.antt:9:12: error: 2 declarations that depend on `law`, which was rejected, were not checked: other, third"
INNER = FACT.replace("proofs/f", "proofs/m/f")
CYCLE = FACT.replace("proofs/f", "proofs/+both")
MADE = "fn c::f: no proof: expected answers in ./proofs/f/Answers.antt; `search` did not prove `returns`"
NOT_PROVED = "fn c::f: not proved"
PROVED = "fn c::f: proved"
CALLS = "fn c::g: no proof: it calls `c::f`, which is not proved"
UNREAD = "src/lib.rt:7:5: error[mismatched-types]: expected `bool`, found `u32`"

SOURCE = """// Two functions and a constant.
const MOST: u32 = 7;

pub fn f(n: u32) -> u32
    ensures { result ≡ n }
{
    n + 0
}

#[cycle(both)]
fn g() -> u32
    ensures { result ≡ 7 }
{
    MOST
}
"""
TOGETHER = """# a fault in each of several functions

fault: one_more
# f adds one
file: src/lib.rt
old:     n + 0
new:     n + 1

fault: other_constant
# the constant is another
file: src/lib.rt
old: = 7;
new: = 8;

fault: other_promise
# f promises something else
file: src/lib.rt
old: result ≡ n
new: result ≡ 0
"""


def planted(crate, text):
    """An edit of a crate that has the two functions and the constant."""
    (crate / "src").mkdir(parents=True)
    (crate / "must-fail").mkdir()
    (crate / "src" / "lib.rt").write_text(SOURCE, encoding="utf-8")
    (crate / "must-fail" / "code_1.edit").write_text(text, encoding="utf-8")
    return read(crate / "must-fail" / "code_1.edit")


DEFINITIONS = """-- Three numbers, the second made of the first.
use Rattle.std.specs.Prelude.{ℕ}

-- the first
abbrev pub first : ℕ
first = 1

abbrev pub second : ℕ
second = first + 1

abbrev pub third : ℕ
third = 3
"""
LAWS = """-- What they are.
use Rattle.c.specs.Numbers.{first, second as next, third}

module _ (n : ℕ) where
  pub first-law : first ≡ 1
  first-law = refl

pub second-law : next ≡ 2
second-law = refl

pub third-law : third ≡ 3
third-law = refl

pub both-law : next + 1 ≡ 3
both-law = step third-law

pub free-law : 1 ≡ 1
free-law = refl -- not by first
"""
LAWS_AT = {"first-law": 6, "second-law": 9, "third-law": 12, "both-law": 15, "free-law": 18}
IN_DEFINITIONS = """# a fault in each of several definitions

fault: other_first
# the first is another
file: specs/Numbers.antt
old: first = 1
new: first = 7

fault: other_third
# the third is another
file: specs/Numbers.antt
old: third = 3
new: third = 7
"""


def planted_definitions(crate):
    """An edit of a crate that has three definitions and some laws; the prover's log is of the crate itself."""
    for file, text in (("specs/Numbers.antt", DEFINITIONS), ("proofs/Laws.antt", LAWS), ("must-fail/definitions_1.edit", IN_DEFINITIONS)):
        (crate / file).parent.mkdir(parents=True)
        (crate / file).write_text(text, encoding="utf-8")
    return read(crate / "must-fail" / "definitions_1.edit")


class TestEdits(unittest.TestCase):
    def test_each_says_what_is_wrong(self):
        found = edits()
        self.assertGreater(sum(len(edit.faults) for edit in found), 600)
        for edit in found:
            with self.subTest(edit=edit.name):
                self.assertRegex(edit.path.read_text(encoding="utf-8").splitlines()[0], r"^# \S.*\S$")
                for fault in edit.faults:
                    self.assertRegex(fault.says, r"^\S.*\S$")

    def test_each_fits_its_crate(self):
        for edit in edits():
            texts = {}
            with self.subTest(edit=edit.name):
                for fault in edit.faults:
                    self.assertTrue(fault.replacements, fault.name)
                    for file, old, new in fault.replacements:
                        texts.setdefault(file, (edit.crate / file).read_text(encoding="utf-8"))
                        self.assertEqual(texts[file].count(old), 1, old)
                        texts[file] = texts[file].replace(old, new)

    def test_each_has_a_name_of_its_own(self):
        names = collections.Counter((edit.crate.name, fault.name) for edit in edits() for fault in edit.faults)
        self.assertEqual({name for name, times in names.items() if times > 1}, TWICE)
        names = collections.Counter((edit.name, fault.name) for edit in edits() for fault in edit.faults)
        self.assertEqual([name for name, times in names.items() if times > 1], [])

    def test_faults_together_stand_in_functions_or_definitions_of_their_own(self):
        for edit in filter(lambda edit: edit.together, edits()):
            with self.subTest(edit=edit.name):
                laws = Crate(edit.crate, edit.crate.name)
                places = [definitions_of(edit.crate, fault, laws) if edit.in_definitions else functions_of(edit.crate, fault) for fault in edit.faults]
                self.assertEqual([fault.name for fault, found in zip(edit.faults, places) if not found or None in found], [])
                self.assertEqual(len(set().union(*places)), sum(map(len, places)))

    def test_every_public_function_has_two_faults(self):
        faults = collections.Counter()
        for edit in edits():
            for fault in edit.faults:
                places = functions_of(edit.crate, fault)
                if len(places) == 1 and None not in places:
                    faults[edit.crate.name, *places.pop()] += 1
        fewer = set()
        for file in sorted(ROOT.glob("crates/*/src/*.rt")):
            crate = file.parent.parent
            if crate.name not in NOT_JUDGED:
                functions = [(crate.name, *function) for function in public_in(file.relative_to(crate).as_posix(), crate)]
                fewer.update(function for function in functions if faults[function] < 2)
        self.assertEqual(sorted(fewer), sorted(FEWER))

    def test_faults_are_read(self):
        with tempfile.TemporaryDirectory() as folder:
            crate = pathlib.Path(folder)
            edit = planted(crate, TOGETHER)
            self.assertTrue(edit.together)
            self.assertEqual([(fault.name, fault.says) for fault in edit.faults],
                             [("one_more", "f adds one"), ("other_constant", "the constant is another"), ("other_promise", "f promises something else")])
            self.assertEqual([functions_of(crate, fault) for fault in edit.faults], [{("", "f")}, {("", "g")}, {None}])

    def first_error(self, *lines):
        """The error that counts of an edit with one fault, in the function f."""
        with tempfile.TemporaryDirectory() as folder:
            edit = planted(pathlib.Path(folder, "c"), TOGETHER.replace("fault: one_more", "").partition("\nfault: ")[0])
            self.assertFalse(edit.together)
            return CHECK.judged(edit, "\n".join(lines))[0][0][1]

    def refusals(self, *lines):
        return CHECK.refusals("\n".join(lines), "c", {"both": {("", "f"), ("", "h")}})

    def test_a_fact_shows_something(self):
        self.assertEqual(self.first_error(NOTE, FACT, NOT_PROVED), FACT)
        self.assertTrue(CHECK.shows(FACT))

    def test_a_name_alone_shows_nothing(self):
        self.assertEqual(self.first_error(NAME, NOT_PROVED), NAME)
        self.assertFalse(CHECK.shows(NAME))
        self.assertFalse(CHECK.shows(FIELD))

    def test_a_fact_looked_for_elsewhere_shows_nothing(self):
        for lines in ((FIELD, FACT), (FACT, FIELD), (FIELD, NOTE), (NAME, FIELD, FACT)):
            self.assertFalse(CHECK.shows(self.first_error(*lines, NOT_PROVED)), lines)

    def test_where_a_goal_is_gone_the_answers_to_the_others_count(self):
        """But not that no proof was found of a goal that has no answer: it might have one under another name."""
        self.assertEqual(self.first_error(NAME, FACT, NOT_PROVED), FACT)
        self.assertEqual(self.first_error(NOTE, FACT, NAME, NOT_PROVED), FACT)
        for lines in ((NAME, NOTE, NOT_PROVED), (NAME, MADE)):
            self.assertFalse(CHECK.shows(self.first_error(*lines)), lines)

    def test_of_one_fault_what_is_refused_first_counts(self):
        other = FACT.replace("proofs/f", "proofs/k")
        self.assertEqual(self.first_error(other, FACT, NAME, NOT_PROVED), other)
        self.assertEqual(self.first_error(NAME, other, NOT_PROVED), NAME)

    def test_without_its_invariant_nothing_counts_of_a_function(self):
        self.assertEqual(self.first_error(FACT, LOOP, NOTE, NOT_PROVED), LOOP)
        self.assertFalse(CHECK.shows(LOOP))

    def test_without_an_error_the_first_note_counts(self):
        self.assertEqual(self.first_error("logic", NOTE, MADE), NOTE)
        self.assertEqual(self.first_error("logic", MADE), MADE)
        self.assertIsNone(self.first_error("logic", PROVED))
        self.assertIsNone(self.first_error("logic", CALLS))

    def test_what_cannot_be_read_shows_nothing(self):
        error = self.first_error(UNREAD, FACT)
        self.assertIn("expected `bool`", error)
        self.assertFalse(CHECK.shows(error))

    def test_of_faults_together_each_wants_an_error_of_its_own(self):
        self.assertEqual(self.refusals(FACT, RESTS, RESTS_BELOW, CALLS), {("", "f"): FACT})
        self.assertFalse(CHECK.shows(self.refusals(FIELD, FACT)["", "f"]))

    def test_refusals_in_modules_cycles_made_proofs_and_laws(self):
        self.assertEqual(set(self.refusals(INNER)), {("m", "f")})
        self.assertEqual(set(self.refusals(CYCLE)), {("", "f"), ("", "h")})
        self.assertEqual(self.refusals(MADE), {("", "f"): MADE})
        self.assertEqual(self.refusals(NOTE, MADE), {("", "f"): NOTE})
        self.assertEqual(set(self.refusals(MADE.replace("fn c::f", "fn c::m::f"))), {("m", "f")})
        self.assertEqual(set(self.refusals(FACT.replace("proofs/f/Answers", "proofs/Law"))), {"proofs/Law.antt"})
        self.assertEqual(self.refusals(NOTE, PROVED, NOT_PROVED), {})

    def test_a_function_that_calls_itself(self):
        self.assertEqual(set(self.refusals(FACT.replace("proofs/f", "proofs/+k"))), {("", "k")})

    def test_the_functions_of_a_cycle(self):
        with tempfile.TemporaryDirectory() as folder:
            edit = planted(pathlib.Path(folder, "c"), TOGETHER)
            self.assertEqual(cycles_of(edit.crate), {"both": {("", "g")}})

    def test_what_is_refused_without_a_fault_is_told(self):
        with tempfile.TemporaryDirectory() as folder:
            edit = planted(pathlib.Path(folder, "c"), TOGETHER.rpartition("\nfault: ")[0])
            errors, elsewhere = CHECK.judged(edit, f"{FACT}\n{FACT.replace('proofs/f', 'proofs/g')}\n")
            self.assertTrue(all(CHECK.shows(error) for _, error in errors))
            self.assertEqual([name for name, _ in errors], ["one_more", "other_constant"])
            self.assertEqual(elsewhere, [])
            errors, elsewhere = CHECK.judged(edit, FACT.replace("proofs/f", "proofs/k"))
            self.assertEqual([error for _, error in errors], [None, None])
            self.assertEqual(len(elsewhere), 1)

    def test_a_proof_follows_the_names_of_another_condition(self):
        with tempfile.TemporaryDirectory() as folder:
            place = pathlib.Path(folder, "proofs", "m", "f")
            place.mkdir(parents=True)
            (place / "Answers.antt").write_text("pub returns-then-n-lt1 : goal.returns-then-n-lt1\nreturns-then-n-lt1 c = law c.if-n-lt1.true c.if-n-lt10.true\n", encoding="utf-8")
            before = {"Rattle-c-proofs.m.f.Lts": {"needs": [["returns", "returns-then-n-lt1"], ["returns-2", "returns"]], "places": [["if-n-lt1", "if-n-lt10"]]}}
            after = {"Rattle-c-proofs.m.f.Lts": {"needs": [["returns", "returns-then-n-lt0"], ["returns-2", "returns"]], "places": [["if-n-lt0", "if-n-lt10"]]}}
            CHECK.follow(pathlib.Path(folder), "c", before, after)
            self.assertEqual((place / "Answers.antt").read_text(encoding="utf-8"),
                             "pub returns-then-n-lt0 : goal.returns-then-n-lt0\nreturns-then-n-lt0 c = law c.if-n-lt0.true c.if-n-lt10.true\n")

    def test_names_go_together_where_a_place_more_is_passed(self):
        before = {"places": [["Start", ["", ""]], ["Then1", ["if1", "if-s"]]]}
        after = {"places": [["Start", ["", ""]], ["After-known", ["known", "known-1"]], ["Then1", ["if1", "if-not-s"]]]}
        self.assertEqual([pair for pair in CHECK.pairs(before, after) if pair[0] != pair[1]], [("if-s", "if-not-s")])

    def test_a_law_tells_of_the_one_changed_definition_that_it_reaches(self):
        with tempfile.TemporaryDirectory() as folder:
            crate = pathlib.Path(folder, "c")
            edit = planted_definitions(crate)
            self.assertTrue(edit.in_definitions)
            failing = {name: f"./proofs/Laws.antt:{line}:9: error: `{name}`: expected type `x`, but this has type `y`" for name, line in LAWS_AT.items()}
            for laws, told in ((("first-law", "third-law"), {"other_first", "other_third"}), (("second-law",), {"other_first"}), (("both-law",), set()),
                               (("both-law", "third-law"), {"other_third"}), ((), set())):
                errors, elsewhere = CHECK.judged(edit, "\n".join(failing[law] for law in laws))
                self.assertEqual({name for name, error in errors if CHECK.shows(error)}, told, laws)
                self.assertEqual(elsewhere, [])

    def test_a_step_that_finds_nothing_to_rewrite_tells_of_no_definition(self):
        with tempfile.TemporaryDirectory() as folder:
            crate = pathlib.Path(folder, "c")
            edit = planted_definitions(crate)
            place = f"./proofs/Laws.antt:{LAWS_AT['third-law']}:9: error: `third-law`: "
            misfit = f"{place}`rw`: no occurrence of the path's left endpoint in the goal"
            self.assertEqual(CHECK.judged(edit, misfit), ([("other_first", None), ("other_third", None)], []))
            self.assertTrue(CHECK.shows(dict(CHECK.judged(edit, f"{misfit}\n{place}expected type `x`")[0])["other_third"]))

    def test_a_law_that_reaches_no_changed_definition_is_told(self):
        with tempfile.TemporaryDirectory() as folder:
            crate = pathlib.Path(folder, "c")
            edit = planted_definitions(crate)
            error = f"./proofs/Laws.antt:{LAWS_AT['free-law']}:3: error: `free-law`: expected type `x`, but this has type `y`"
            self.assertEqual(CHECK.judged(edit, error), ([("other_first", None), ("other_third", None)], [error]))
            self.assertEqual(CHECK.judged(edit, error.partition("`free-law`")[0] + RESTS.partition("error: ")[2])[1], [])
            self.assertEqual(CHECK.judged(edit, error.replace("Laws.antt", "f/Answers.antt"))[1], [])

    def test_a_definition_that_cannot_be_read_shows_nothing(self):
        with tempfile.TemporaryDirectory() as folder:
            crate = pathlib.Path(folder, "c")
            edit = planted_definitions(crate)
            error = "./specs/Numbers.antt:11:9: error: `third`: expected type `ℕ`, but this has type `Bool`"
            self.assertEqual(CHECK.judged(edit, error), ([("other_first", None), ("other_third", None)], [error]))
            alone = read(crate / "must-fail" / "definitions_1.edit")._replace(together=False, faults=edit.faults[1:])
            self.assertFalse(CHECK.shows(CHECK.judged(alone, error)[0][0][1]))
            self.assertTrue(CHECK.shows(CHECK.judged(alone, error.replace(":11:", ":8:"))[0][0][1]))


if __name__ == "__main__":
    unittest.main()
