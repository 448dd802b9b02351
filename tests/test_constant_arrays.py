"""Constant arrays in the sources (document 02, A3).

Each is on a list here with what it serves, and none serves successors or the packing of labels.
"""

import pathlib
import tempfile
import unittest

import rattle_sources
from rattle_sources import constant_arrays

ROOT = pathlib.Path(__file__).resolve().parent.parent

# Source -> the constant arrays it may have, each with what it serves.
ALLOWED = {
    "crates/air_logs/src/lib.rt": {r'b"END\n"': "the last line of a listing, as the log reader compares it"},
    "crates/bodies/src/limits.rt": {
        "KINDS": "the table of kinds: the least and the most of each kind's event and argument",
    },
    "crates/listing_lines/src/lib.rt": {r'b"END\n"': "the last line of a listing"},
}

# The crate in which successors and the packing of labels are worked out. No list can allow an array here.
WORKED_OUT = ("crates/labels/",)


def faults(root, allowed):
    """What is wrong below a folder: arrays that the list does not allow, entries without their array or a purpose."""
    wrong, met = [], set()
    for path in rattle_sources.sources(root):
        source = path.relative_to(root).as_posix()
        for array in constant_arrays(path.read_text(encoding="utf-8")):
            met.add((source, array.name))
            if array.name not in allowed.get(source, {}):
                wrong.append(f"{source}:{array.line}: constant array not on the list: {array.name}")
            elif source.startswith(WORKED_OUT):
                wrong.append(f"{source}:{array.line}: constant array where labels are worked out: {array.name}")
    for source, arrays in allowed.items():
        for name, purpose in arrays.items():
            if (source, name) not in met:
                wrong.append(f"{source}: on the list, but not there: {name}")
            if not purpose:
                wrong.append(f"{source}: without a purpose: {name}")
    return wrong


class Sources(unittest.TestCase):
    def test_all_on_the_list(self):
        self.assertEqual(faults(ROOT, ALLOWED), [])

    def test_all_sources_are_read(self):
        read = {path.relative_to(ROOT).as_posix() for path in rattle_sources.sources(ROOT)}
        lines = (ROOT / "crates.txt").read_text(encoding="utf-8").splitlines()
        for crate in (line.split(":")[0].split()[0] for line in lines if ":" in line and not line.startswith("#")):
            if any((ROOT / "crates" / crate / "src").glob("*")):
                self.assertTrue(any(source.startswith(f"crates/{crate}/src/") for source in read), crate)
        self.assertIn("crates/labels/src/lib.rt", read)
        self.assertIn("crates/labels/src/words.rt", read)


PLANTED = {
    "a const of array type": ("const NEXT: [u8; 3] = [1, 2, 0];", "NEXT"),
    "a public one": ("pub const NEXT: [u8; 3] = [1, 2, 0];", "NEXT"),
    "a const filled with one value": ("const ONES: [u32; 16] = [1; 16];", "ONES"),
    "a const of slices": ("const WORDS: &[u8] = &[1, 4, 16];", "WORDS"),
    "a const of arrays of arrays": ("const TWICE: [[u8; 2]; 2] = [[0, 1], [1, 2]];", "TWICE"),
    "a const of structs": ("const ROWS: [Row; 2] = [\n    Row { a: 0, b: -1 },\n    Row { a: 1, b: 2 },\n];",
                           "ROWS"),
    "a const struct with an array in it": ("const ROW: Row = Row { steps: [1, 2, 0] };", "ROW"),
    "a static": ("static mut NEXT: [u8; 3] = [1, 2, 0];", "NEXT"),
    "a byte string in a const": ('const NEXT: &[u8] = b"\\x01\\x02\\x00";', "NEXT"),
    "a literal in a local": ("fn f() { let next = [1, 2, 0]; }", "[1, 2, 0]"),
    "a literal with its type": ("fn f() { let next: [u8; 3] = [1, 2, 0]; }", "[1, 2, 0]"),
    "a literal that is indexed": ("fn f(k: usize) -> u8 { [1u8, 2, 0][k] }", "[1u8, 2, 0]"),
    "a literal that is returned": ("fn f() -> [u8; 2] { return [0x01, 0x04]; }", "[0x01, 0x04]"),
    "a literal that is lent": ("fn f() { g(&[1, 4, 16], 3); }", "[1, 4, 16]"),
    "one over several lines": ("fn f() -> [u32; 3] {\n    [\n        1,\n        4,\n        16,\n    ]\n}",
                               "[ 1, 4, 16, ]"),
    "negative numbers": ("fn f() { let a = [-1, -4]; }", "[-1, -4]"),
    "named constants": ("fn f() { let a = [bodies::DONE, BAD_NUMBER]; }", "[bodies::DONE, BAD_NUMBER]"),
    "constants worked with": ("fn f() { let a = [1 << 2, (4 * 4) as u8]; }", "[1 << 2, (4 * 4) as u8]"),
    "two truth values": ("fn f() { let a = [true, false]; }", "[true, false]"),
    "two letters": ("fn f() { let a = [b'a', b']']; }", "[b'a', b']']"),
    "cases of an enum": ("fn f() { let a = [Body::Empty, Body::Drop { event: 5 }]; }",
                         "[Body::Empty, Body::Drop { event: 5 }]"),
    "structs": ("fn f() { let a = [Row { a: 1, b: 4 }, Row { a: 2, b: 8 }]; }",
                "[Row { a: 1, b: 4 }, Row { a: 2, b: 8 }]"),
    "rows inside a literal": ("fn f() { let a = [[1, 2], [2, 0]]; }", "[[1, 2], [2, 0]]"),
    "a row inside a struct": ("fn f(n: u8) { let a = Row { n: n, steps: [1, 2, 0] }; }", "[1, 2, 0]"),
    "a row beside what is no constant": ("fn f(n: u8) { let a = [[n, n], [1, 2]]; }", "[1, 2]"),
    "two constants beside a parameter": ("fn f(n: u8) { let a = [1, 2, n]; }", "[1, 2, n]"),
    "a byte string": ('fn f() { g(b"\\x01\\x02\\x00"); }', r'b"\x01\x02\x00"'),
    "an empty byte string": ('fn f() { g(b""); }', 'b""'),
    "a raw byte string": ('fn f() { g(br#"a"b"#); }', 'br#"a"b"#'),
    "one after a comment": ('fn f() { /* " */ g(b"ab"); } // "', 'b"ab"'),
    "one after a letter that is a quote": ("fn f() { let q = b'\"'; let a = [1, 2]; let r = b'\"'; }", "[1, 2]"),
    "one after a contract": ("fn f() -> [u8; 2]\n    ensures { result ≡ 1 ∷ 2 ∷ [] }\n{\n    [1, 2]\n}", "[1, 2]"),
    "one after clauses with names": ("fn f() -> [u8; 2]\n    requires { n' ≡ 1 }\n    ensures a { result ≡ record { b = 1 } }\n"
                                     "    ensures* c { [3, 4] }\n{\n    [1, 2]\n}", "[1, 2]"),
    "one after a ghost import": ("ghost use A.specs.B.{f', [], ◌∷◌};\n\nconst NEXT: [u8; 2] = [1, 2];", "NEXT"),
    "one beside a ghost field": ("struct S { a: u8, ghost b: { c a [1, 2] } }\nfn f() { let s = S { a: [3, 4] }; }", "[3, 4]"),
}

INNOCENT = {
    "a comment": "// const NEXT: [u8; 3] = [1, 2, 0];\nfn f() {}",
    "a comment behind code": "fn f() {} // [1, 2, 0] and b\"ab\"",
    "a comment in brackets": "/* const NEXT: [u8; 3] = [1, 2, 0]; /* [1, 2] */ b\"ab\" */ fn f() {}",
    "a text": 'fn f() { g("[1, 2, 0] b\\"ab\\""); }',
    "the name of a convention": 'pub extern "C" fn f(bytes: &[u8], n: u32) -> u32 { n }',
    "a lifetime": "fn f(a: A) -> &'static str { g(a) }",
    "a value for all places": "fn f() { let a = [0u8; 16]; let b = [Body::Empty; 2]; }",
    "types": "struct S { a: [u8; 16], b: [[u16; 4]; 4] }\nfn f(a: &mut [u8], b: [Station; 16]) -> [u8; 2] { g(a, b) }",
    "an index": "fn f(a: [u8; 16]) -> u8 { a[1] + a[1 + 2] + g()[2] }",
    "a part": "fn f(a: &[u8]) { g(&a[4..20]); }",
    "an attribute": "#[derive(Clone, Copy)]\nstruct S { a: u8 }",
    "values of a run": "fn f(a: u8, s: S) -> [u8; 3] { [a, s.b, g(1, 2)] }",
    "one constant beside values": "fn f(a: u8) -> [u8; 3] { [a, 1, a] }",
    "a single element": "fn f() -> [u8; 1] { [7] }",
    "a number that is a constant": "const ROOM: usize = 260;\nconst LETTER: u8 = b'[';",
    "letters": "fn f() { g(b'[', b',', b']'); }",
    "a contract": "fn f(n: usize)\n    requires { g [1, 2] ≡ n }\n{\n}",
    "clauses with names": "fn f(n: usize)\n    requires a { g [1, 2] ≡ n }\n    requires b { g' (record { c = [3, 4] }) }\n{\n}",
    "a starred clause": "fn f(n: usize)\n    ensures* { g [1, 2] }\n    ensures* b { g [1, 2] }\n{\n}",
    "a clause of a closure": "fn f() { let g = |n: u8| -> u8 requires { h [1, 2] ≡ n } { n }; }",
    "ghost fields and members": "struct S { a: u8, ghost b: { c [1, 2] } }\nimpl T for S { ghost d = { e [1, 2] }; }",
    "a ghost import": "ghost use A.specs.B.{f', g', [1, 2]};",
}


class TheTestCanFail(unittest.TestCase):
    def test_planted_arrays_are_found(self):
        for name, (source, array) in PLANTED.items():
            with self.subTest(name):
                self.assertEqual([found.name for found in constant_arrays(source)], [array])
                remarked = f"// [1, 2]\n{source}\n// b\"ab\"\n"
                self.assertEqual([found.name for found in constant_arrays(remarked)], [array])

    def test_nothing_else_is(self):
        for name, source in INNOCENT.items():
            with self.subTest(name):
                self.assertEqual(constant_arrays(source), [])

    def test_lines(self):
        self.assertEqual(constant_arrays("/* a\n */\nfn f() {\n    let a = [\n1, 2];\n g(b\"a\n b\"); h([3, 4]);\n}"),
                         [("[ 1, 2]", 4), ('b"a\n b"', 6), ("[3, 4]", 7)])

    def test_planted_in_a_project(self):
        """In every source of the project in turn, at its end, also where an array of the list stands already."""
        for path in rattle_sources.sources(ROOT):
            source = path.read_text(encoding="utf-8")
            before = constant_arrays(source)
            after = constant_arrays(source + "\nfn planted() { let a = [1, 2, 0]; }\n")
            self.assertEqual([found.name for found in after], [found.name for found in before] + ["[1, 2, 0]"], path)

    def test_planted_for_labels(self):
        """The successor and the weights of the labels in a word, looked up in arrays."""
        successor = ROOT / "crates" / "labels" / "src" / "lib.rt"
        packing = ROOT / "crates" / "labels" / "src" / "words.rt"
        for path, right, wrong, array in (
                (successor, "((u32::from(label) + 1) % 3) as u8", "[1u8, 2, 0][label as usize]", "[1u8, 2, 0]"),
                (packing, "word * 4 +", "word * [4u32, 4][0] +", "[4u32, 4]"),
                (packing, "((word >> (2 * k)) % 4) as u8", 'b"\\x00\\x01\\x02\\x03"[((word >> (2 * k)) % 4) as usize]',
                 r'b"\x00\x01\x02\x03"')):
            source = path.read_text(encoding="utf-8")
            self.assertIn(right, source)
            self.assertEqual(constant_arrays(source), [])
            self.assertEqual({found.name for found in constant_arrays(source.replace(right, wrong))}, {array})

    def test_faults(self):
        with tempfile.TemporaryDirectory() as folder:
            for crate, text in (("labels", "const NEXT: [u8; 3] = [1, 2, 0];\n"),
                                ("listing_lines", 'fn f() { g(b"END\\n"); }\n')):
                (pathlib.Path(folder) / "crates" / crate / "src").mkdir(parents=True)
                (pathlib.Path(folder) / "crates" / crate / "src" / "lib.rt").write_text(text, encoding="utf-8")
            for place in "target", "crates/labels/out":
                (pathlib.Path(folder) / place).mkdir()
                built = pathlib.Path(folder) / place / "built.rt"
                built.write_text("const A: [u8; 2] = [1, 2];\n", encoding="utf-8")
            end = {"crates/listing_lines/src/lib.rt": {r'b"END\n"': "the last line"}}
            listed = {"crates/labels/src/lib.rt": {"NEXT": "successors"}}
            self.assertEqual(faults(folder, end), ["crates/labels/src/lib.rt:1: constant array not on the list: NEXT"])
            self.assertEqual(faults(folder, {**end, **listed}),
                             ["crates/labels/src/lib.rt:1: constant array where labels are worked out: NEXT"])
            self.assertEqual(faults(folder, listed), [
                "crates/labels/src/lib.rt:1: constant array where labels are worked out: NEXT",
                r'crates/listing_lines/src/lib.rt:1: constant array not on the list: b"END\n"'])
            self.assertIn("crates/listing_lines/src/lib.rt: on the list, but not there: LAST",
                          faults(folder, {"crates/listing_lines/src/lib.rt": {r'b"END\n"': "the last line", "LAST": "none"}}))
            self.assertIn(r'crates/listing_lines/src/lib.rt: without a purpose: b"END\n"',
                          faults(folder, {"crates/listing_lines/src/lib.rt": {r'b"END\n"': ""}}))


if __name__ == "__main__":
    unittest.main()
