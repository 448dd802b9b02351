"""The man page, made of the help texts: tools/manual writes it to docs/relay.1."""

import itertools
import re

from . import VERSION, command, faults, places

DESCRIPTION = """Relay shows on the command line what the proved library and programs of the edit relay answer:
listings of scripts, forecasts from a plan of links, and comparisons of air logs. In the repository it is ./relay.

What is wrong with a file is said on standard error: the file, the line and what was expected. Long work shows on a
terminal how far it is; colours are used there only."""
ENVIRONMENT = (
    ("NO_COLOR", "no colours on a terminal, where it is set and not empty"),
    ("RELAY_LIBRARY", "another shared object than that of the relay"),
    ("RELAY_LISTING_PROGRAM", "another program for listings"),
    ("RELAY_ARCHIVE", "in the repository: another archive to make the shared object of"),
    ("CC", "in the repository: the compiler that makes it; else gcc"),
    ("DESTDIR", "for install: what is put before PREFIX while files are written"),
)
FILES = (
    ("PREFIX/lib/librelay.a, PREFIX/lib/librelay.so", "the library for C"),
    ("PREFIX/include/relay.h", "its header, which documents every call"),
    ("PREFIX/lib/pkgconfig/relay.pc", "for pkg-config: cc program.c $(pkg-config --cflags --libs relay)"),
    ("PREFIX/share/bash-completion/completions/relay", "completion for bash"),
    ("PREFIX/share/doc/relay", "the documents named here, and the folder examples: examples are run from there, or "
                               "from the repository's top"),
)
SPECIAL = {"\\": r"\e", "-": r"\-", "'": r"\(aq", "`": r"\(ga", "^": r"\(ha", "~": r"\(ti"}


def escaped(text):
    """A text for troff."""
    text = "".join(SPECIAL.get(one, one) for one in text)
    return re.sub(r"(?m)^\.", r"\\&.", text)


def paragraph(text):
    return [".PP", escaped(text[:1].upper() + text[1:])]


def verbatim(lines):
    return [".PP", ".RS 4", ".EX", *map(escaped, lines), ".EE", ".RE"]


def term(name, text):
    return [".TP", rf"\fB{escaped(name)}\fR", escaped(text)]


def prose(text):
    """Paragraphs, and lines that are set in by four columns as they stand."""
    lines = []
    for block in text.split("\n\n"):
        for inset, group in itertools.groupby(block.splitlines(), lambda line: line.startswith("    ")):
            group = list(group)
            lines += verbatim(line[4:] for line in group) if inset else paragraph("\n".join(group))
    return lines


def words_of(action):
    """How an argument is written."""
    value = "" if action.nargs == 0 else action.metavar or action.dest.upper()
    if action.option_strings:
        return f"[{' '.join(filter(None, (action.option_strings[-1], value)))}]"
    return {None: value, "?": f"[{value}]", "*": f"[{value} ...]"}[action.nargs]


def subcommand(name, module, parser):
    """Its usage, its arguments and its text."""
    actions = [action for action in parser._actions if action.dest != "help"]   # argparse tells them nowhere else
    actions.sort(key=lambda action: not action.option_strings)
    called = "./relay" if hasattr(module, "ONLY_IN_REPOSITORY") else "relay"
    summary, _, rest = module.__doc__.partition("\n")
    lines = [f".SS {escaped(' '.join([called, name, *map(words_of, actions)]))}", escaped(summary)]
    for action in sorted(actions, key=lambda action: bool(action.option_strings)):
        lines += term(words_of(action).strip("[]"), action.help)
    return lines + prose(places.spoken(rest.strip(), installed=True))


def page():
    """The whole man page."""
    modules = command.subcommands()
    _, parsers = command.parsers(modules)
    lines = [f'.TH RELAY 1 "" "relay {VERSION}" "The edit relay"',
             ".SH NAME", r"relay \- the edit relay on the command line",
             ".SH SYNOPSIS", r"\fBrelay\fR \fISUBCOMMAND\fR ...",
             ".br", r"\fBrelay\fR [\fISUBCOMMAND\fR] \fB\-\-help\fR",
             ".SH DESCRIPTION", *prose(DESCRIPTION)[1:],
             ".SH SUBCOMMANDS"]
    for name, module in modules.items():
        lines += subcommand(name, module, parsers[name])
    for title, terms in (("EXIT STATUS", faults.STATUSES), ("ENVIRONMENT", ENVIRONMENT), ("FILES", FILES)):
        lines += [f".SH {title}", *itertools.chain.from_iterable(itertools.starmap(term, terms))]
    return "\n".join(lines) + "\n"
