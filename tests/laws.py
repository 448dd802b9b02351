"""What the laws of a crate rest on: the definitions and laws that their texts name, and those that these name in turn.

A text is what stands between two blank lines of a file of definitions or proofs: a definition, or a law with its proof. A file imports names of others one by
one, so that each name of a text leads to the text that declares it. Names of other crates lead nowhere. What stands in the head of a module counts for every text
of its file. The proofs of functions are left out, for what they rest on stands in contracts too.
"""
import functools
import re
from typing import NamedTuple

HEADS = r"(?:(?:abbrev|unfoldable|opaque|pub|private|record|data) )*"
DECLARED = re.compile(rf"( *){HEADS}([^\s:(){{}}=]+)(?: [({{].*)? :(?: |$)|( *)(?:pub )?(?:record|data) ([^\s:(){{}}=]+)")
IMPORTED = re.compile(r"^(?:pub )?use Rattle\.(\w+)\.((?:specs|proofs)\.[^\s{]+)\.\{([^}]*)\}", re.MULTILINE)
OF_A_FUNCTION = ("Proof.antt", "Answers.antt", "Invariants.antt")  # in a folder of the function's name
IMPORT = re.compile(r" *(?:(?:pub )?(?:use|mod)) ")
MODULE = re.compile(r" *module ")
WORD = re.compile(r"[^\s(){};,\[\]λ.«»]+")


class Text(NamedTuple):
    file: str
    first: int  # line
    last: int
    names: frozenset  # that it declares
    words: frozenset


class Crate:
    """The definitions and laws of a crate, or of one with some files changed."""

    def __init__(self, folder, name, changed=()):
        self.name = name
        self.files = {str(path.relative_to(folder)): path.read_text(encoding="utf-8")
                      for part in ("specs", "proofs") for path in sorted((folder / part).glob("**/*.antt"))} | dict(changed)

    @functools.cache
    def texts(self, file):
        """The texts of a file."""
        lines, found, first = self.files[file].splitlines(), [], None
        heads = " ".join(filter(MODULE.match, lines))
        for number, line in enumerate([*lines, ""], 1):
            if line.strip():
                first = first or number
            elif first:
                found.append(self.text(file, first, lines[first - 1:number - 1], heads))
                first = None
        return found

    def text(self, file, first, lines, heads):
        code = [line for line in (line.partition("--")[0] for line in lines) if line.strip() and not IMPORT.match(line) and not MODULE.match(line)]
        outermost = min((len(line) - len(line.lstrip()) for line in code), default=0)
        names = {head[2] or head[4] for head in map(DECLARED.match, code) if head and len(head[1] if head[3] is None else head[3]) == outermost}
        return Text(file, first, first + len(lines) - 1, frozenset(names), frozenset(WORD.findall(" ".join([heads, *code]))))

    def text_at(self, file, line):
        """The text of a law or of a definition at a line, or None."""
        if file not in self.files or file.count("/") > 1 and file.rpartition("/")[2] in OF_A_FUNCTION:
            return None
        return next((text for text in self.texts(file) if text.first <= line <= text.last), None)

    @functools.cache
    def declared(self, file):
        """The texts of a file by the names that they declare."""
        found = {}
        for text in self.texts(file):
            for name in text.names:
                found.setdefault(name, []).append(text)
        return found

    @functools.cache
    def imported(self, file):
        """Name -> the file that it is imported from and its name there. What is imported from a record is the record."""
        found = {}
        for crate, module, names in IMPORTED.findall(self.files[file]):
            parts = module.split(".")
            ends = (end for end in range(len(parts), 0, -1) if f"{'/'.join(parts[:end])}.antt" in self.files)
            if crate != self.name or (end := next(ends, None)) is None:
                continue
            for name in filter(None, map(str.strip, names.split(","))):
                original, _, other = name.partition(" as ")
                found[other or original] = f"{'/'.join(parts[:end])}.antt", parts[end] if parts[end:] else original
        return found

    def meant(self, file, word):
        """The file and the name that a word in a file means, or None where it is no name of this crate."""
        passed = set()
        while (file, word) not in passed:
            if word in self.declared(file):
                return file, word
            passed.add((file, word))
            file, word = self.imported(file).get(word, (file, word))
        return None

    def reached(self, text):
        """All that a text rests on, and what it declares itself, each as its file and name."""
        found, due = set(), [text]
        while due:
            text = due.pop()
            named = {self.meant(text.file, word) for word in text.words | text.names} - found - {None}
            found |= named
            due += [other for file, name in named for other in self.declared(file)[name]]
        return found
