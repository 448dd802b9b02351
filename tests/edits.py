"""The edits that the prover must refuse: the faults of each file, and the functions and definitions that a fault stands in.

A file of edits has replacements of text in the code or the definitions of its crate. A file without a line 'fault: NAME' (or '# fault: NAME', which rt takes for a
comment) has one fault, named as the file. With such lines it has one fault under each. Either all of them are in the code and no two in one function; a fault in a
constant counts for all functions that use it. The prover judges a function by its own code and the contracts of those that it calls, so it refuses the faults one by
one, although the crate is proved only once. Or all of them are in definitions and no two in one. The prover judges a law by what the law names, so one that reaches
a single changed definition tells of that.
"""
import pathlib
import re
from typing import NamedTuple

ROOT = pathlib.Path(__file__).resolve().parent.parent
FUNCTION = re.compile(r'^((?:    )?)(pub )?(?:extern "C" )?fn (\w+)', re.MULTILINE)  # a method stands further in
IMPL = re.compile(r"^(?:impl|(?:pub )?trait)\b(?:<[^{]*?>(?= ))?(?: *(?:\w+::)*(\w+)[^{\n]* for\b)? *(?:\w+::)*(\w+)", re.MULTILINE)
CYCLE = re.compile(r'^#\[cycle\((\w+)\)\]\n(?:#\[.*\]\n)*(?:pub )?(?:extern "C" )?fn (\w+)', re.MULTILINE)
CONSTANT = re.compile(r" *(?:pub )?const (\w+):")


class Replacement(NamedTuple):
    file: str
    old: str
    new: str


class Fault(NamedTuple):
    name: str
    says: str  # what is wrong
    replacements: tuple


class Edit(NamedTuple):
    path: pathlib.Path
    together: bool  # several faults, each to be refused by itself
    faults: tuple

    @property
    def crate(self):
        return self.path.parent.parent

    @property
    def name(self):
        return f"{self.crate.name}/{self.path.stem}"

    @property
    def in_definitions(self):
        """Whether all faults are in definitions."""
        return all(replacement.file.startswith("specs/") for fault in self.faults for replacement in fault.replacements)


def fault_in(name, lines):
    """A fault from the lines that tell it: its first comment, and its replacements as rt reads them."""
    says = next((line[2:] for line in lines if line.startswith("# ")), "")
    found, file, old = [], None, None
    for line in lines:
        if line.startswith("file: "):
            file = line[6:]
        elif line.startswith("old: "):
            old = line[5:]
        elif line.startswith("new:"):
            found.append(Replacement(file, old, line[4:].removeprefix(" ")))
    return Fault(name, says, tuple(found))


def read(path):
    """The edit in a file."""
    before, *parts = re.split(r"(?m)^(?:# )?fault: ", path.read_text(encoding="utf-8"))
    if not parts:
        return Edit(path, False, (fault_in(path.stem, before.splitlines()),))
    named = [part.splitlines() for part in parts]
    return Edit(path, True, tuple(fault_in(lines[0], lines[1:]) for lines in named))


def edited(edit):
    """The files that an edit changes, each with its text under all its faults. An old text that does not stand once is an error."""
    texts = {}
    for fault in edit.faults:
        for file, old, new in fault.replacements:
            text = texts.get(file) or (edit.crate / file).read_text(encoding="utf-8")
            if text.count(old) != 1:
                raise ValueError(f"{edit.name}: {fault.name}: this stands {text.count(old)} times in {file}, and not once: {old}")
            texts[file] = text.replace(old, new)
    return texts


def edits():
    """Every edit of every crate."""
    return [read(path) for path in sorted(ROOT.glob("crates/*/must-fail/*.edit"))]


def heads_in(file, text):
    """The head of each function in a file of code, with the function's module and name; with its type and name where it is a method, or with its type, its trait
    and its name, as the prover writes them."""
    module = "" if pathlib.Path(file).stem in ("lib", "main") else pathlib.Path(file).stem
    types = [(head.start(), head[2][0].upper() + head[2][1:] + (head[1] or "")) for head in IMPL.finditer(text)]
    for head in FUNCTION.finditer(text):
        inner, _, name = head.groups()
        yield (next((type for place, type in reversed(types) if place < head.start()), module) if inner else module, name), head


def bodies_in(file, crate):
    """Where the body of each function in a file of code begins and ends, by the function's place and name."""
    text = (crate / file).read_text(encoding="utf-8")
    found = {}
    for function, head in heads_in(file, text):
        inner = head[1]
        ends = text.find(f"\n{inner}}}\n", head.start())
        begins = text.find(f"\n{inner}{{\n", head.start(), ends)  # behind the contract; without one the brace stands in the head
        found[function] = (max(begins, head.start()), ends)
    return text, found


def public_in(file, crate):
    """The public functions in a file of code, methods among them, each by its place and name."""
    return [function for function, head in heads_in(file, (crate / file).read_text(encoding="utf-8")) if head[2]]


def cycles_of(crate):
    """The functions of a crate that call each other, by the name of their cycle; each as its module and name."""
    found = {}
    for path in sorted((crate / "src").glob("*.rt")):
        for name, function in CYCLE.findall(path.read_text(encoding="utf-8")):
            found.setdefault(name, set()).add(("" if path.stem in ("lib", "main") else path.stem, function))
    return found


def functions_of(crate, fault):
    """The functions by whose proofs a fault in the code can be refused, each as its module and name: those whose bodies it stands in, or that use the constant
    that it changes. Nothing is among them where it stands elsewhere."""
    found = set()
    for file, old, _ in fault.replacements:
        if not file.startswith("src/"):
            return {None}
        text, bodies = bodies_in(file, crate)
        place = text.index(old)
        within = {function for function, (begins, ends) in bodies.items() if begins < place < ends}
        constant = CONSTANT.match(text[text.rfind("\n", 0, place + 1) + 1:])
        if constant and not within:
            within = users_of(crate, constant[1])
        found |= within or {None}
    return found


def definitions_of(crate, fault, laws):
    """The definitions that a fault stands in, each as its file and name. `laws` is the crate, or a copy of it with the fault, as tests/laws.py reads it."""
    found = set()
    for file, old, _ in fault.replacements:
        text = (crate / file).read_text(encoding="utf-8")
        found |= {(file, name) for name in laws.text_at(file, 1 + text.count("\n", 0, text.index(old))).names}
    return found


def users_of(crate, constant):
    """The functions of a crate whose bodies name a constant."""
    found = set()
    for path in sorted((crate / "src").glob("*.rt")):
        text, bodies = bodies_in(f"src/{path.name}", crate)
        found |= {function for function, (begins, ends) in bodies.items() if re.search(rf"\b{constant}\b", text[begins:ends])}
    return found
