"""Constant arrays in Rattle sources: a reader that finds them by their form.

What counts: a `const` or `static` whose type or value has an array; an array literal with two or more constant
elements, wherever it stands; a byte string. What does not: `[v; n]` outside a constant, which is filled when the code
runs; types, indices, attributes and patterns that bind names; anything in a comment, in a text or character literal,
in the terms of a contract or of another ghost item, or in a line that imports names for them.
"""

import os
import pathlib
import re
from typing import NamedTuple

TOKEN = re.compile(r"""
    (?P<gap>\s+|//[^\n]*)
  | (?P<bytes>br(?P<bhash>\#*)".*?"(?P=bhash)|b"(?:[^"\\]|\\.)*")
  | (?P<text>r(?P<thash>\#*)".*?"(?P=thash)|"(?:[^"\\]|\\.)*")
  | (?P<char>b?'(?:[^'\\\n]|\\[^\n][^'\n]*)')
  | (?P<number>[0-9][0-9A-Za-z_]*(?:\.[0-9][0-9A-Za-z_]*)?)
  | (?P<name>[^\W\d]\w*)
  | (?P<mark>::|.)
""", re.VERBOSE | re.DOTALL)

FORMS = ("gap", "bytes", "text", "char", "number", "name", "mark")
# What begins terms for proofs alone: a clause, with its name where it has one, and a ghost field or member. These words
# are kept for that: nothing else may have them as its name.
TERMS = re.compile(r"(?:requires|ensures)\b\*?\s*(?:\w+\s*)?(?=\{)|ghost\s+\w+\s*(?:[:=]\s*)?(?=\{)")
GHOST_USE = re.compile(r"ghost\s+use\b[^;]*;")
PRIMITIVE = {"u8", "u16", "u32", "u64", "usize", "i8", "i16", "i32", "i64", "isize", "bool", "as"}
BEFORE_AN_INDEX = {"name", "number", "bytes", "text"}
BEFORE_AN_EXPRESSION = {"return", "in", "if", "else", "match", "while", "break", "mut"}  # after these [ is no index


class Token(NamedTuple):
    form: str
    text: str
    at: int


class Found(NamedTuple):
    """A constant array: its name, or the literal itself where it has none."""
    name: str
    line: int


def remark_end(source, at):
    """The end of what begins at a place with /*, where such comments nest. Where none begins: the place itself."""
    if not source.startswith("/*", at):
        return at
    depth = 0
    for bracket in re.finditer(r"/\*|\*/", source[at:]):
        depth += 1 if bracket.group() == "/*" else -1
        if depth == 0:
            return at + bracket.end()
    return len(source)


def ghost_end(source, at):
    """The end of what begins at a name and is there for proofs alone: an import, or terms up to the bracket that closes them.

    Where no such thing begins: the place itself.
    """
    if use := GHOST_USE.match(source, at):
        return use.end()
    if not (begun := TERMS.match(source, at)):
        return at
    depth = 0
    for bracket in re.finditer(r"[{}]", source[begun.end():]):
        depth += 1 if bracket.group() == "{" else -1
        if depth == 0:
            return begun.end() + bracket.end()
    raise ValueError(f"terms are not closed: {source[at:begun.end()]}")


def tokens(source):
    """The tokens of a source, without gaps, comments and what is there for proofs alone."""
    found, at = [], 0
    while at < len(source):
        end = remark_end(source, at)
        if end == at:
            match = TOKEN.match(source, at)
            end = match.end()
            form = next(form for form in FORMS if match.group(form) is not None)
            ghost = ghost_end(source, at) if form == "name" else at
            if ghost > at:
                end = ghost
            elif form != "gap":
                found.append(Token(form, match.group(), at))
        at = end
    return found


def closing(line, at):
    """The place of the bracket that closes the one at a place."""
    depth = 0
    for place in range(at, len(line)):
        if line[place].form == "mark":
            depth += (line[place].text in "[({") - (line[place].text in "])}")
            if depth == 0:
                return place
    raise ValueError(f"a bracket is not closed: {line[at]}")


def parts(line, mark):
    """Tokens split at the marks that stand in no inner bracket; a last empty part is left out."""
    split, depth = [[]], 0
    for token in line:
        if token.form == "mark" and token.text in "[({":
            depth += 1
        elif token.form == "mark" and token.text in "])}":
            depth -= 1
        if depth == 0 and token.form == "mark" and token.text == mark:
            split.append([])
        else:
            split[-1].append(token)
    return split if split[-1] else split[:-1]


def is_constant(element):
    """An expression of literals, named constants, cases of enums and literals of structs."""
    for at, token in enumerate(element):
        following = element[at + 1].text if at + 1 < len(element) else ""
        if token.form != "name" or token.text in PRIMITIVE or token.text in ("true", "false"):
            continue
        if token.text[0].isupper():              # a constant, an enum's case, a struct
            continue
        if following in ("::", ":"):             # the way to a name; a field of a struct literal
            continue
        return False
    return bool(element)


def opens_expression(line, at):
    """Does the [ at a place open an array literal, or a pattern or type of that form, and not an index or attribute?"""
    if at == 0:
        return True
    before = line[at - 1]
    if before.form == "name":
        return before.text in BEFORE_AN_EXPRESSION
    if before.form in BEFORE_AN_INDEX:
        return False
    return before.text not in (")", "]", "#", "!")


def constant_end(line, at):
    """The place of the ; that ends the declaration at a place."""
    while line[at].text != ";":
        at = closing(line, at) + 1 if line[at].text in ("[", "(", "{") else at + 1
    return at


def constant_arrays(source):
    """All constant arrays of a source, in order."""
    line, found, at = tokens(source), [], 0

    def add(token, name):
        found.append(Found(name, 1 + source.count("\n", 0, token.at)))

    while at < len(line):
        token = line[at]
        lifetime = token.at > 0 and source[token.at - 1] == "'"
        if token.form == "name" and token.text in ("const", "static") and not lifetime and line[at + 1].text not in ("fn", "unsafe"):
            end = constant_end(line, at)
            if any(one.text == "[" or one.form == "bytes" for one in line[at:end]):
                add(token, next(one.text for one in line[at + 1:] if one.text != "mut"))
            at = end
        elif token.form == "bytes":
            add(token, token.text)
        elif token.form == "mark" and token.text == "[" and opens_expression(line, at):
            end = closing(line, at)
            if sum(map(is_constant, parts(line[at + 1:end], ","))) >= 2:
                add(token, " ".join(source[token.at:line[end].at + 1].split()))
                at = end
        at += 1
    return found


def sources(root):
    """All Rattle sources below a folder, but for what is built: that is not looked at, for a proof may be writing there."""
    found = []
    for folder, below, files in os.walk(root):
        below[:] = set(below) - {"target", "out", ".git"}
        found += [pathlib.Path(folder, name) for name in files if name.endswith(".rt")]
    return sorted(found)
