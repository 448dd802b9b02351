"""./relay: finds the subcommands, reads the arguments, and turns what goes wrong into words and an exit status."""

import argparse
import contextlib
import importlib
import os
import pathlib
import pkgutil
import signal
import sys
import textwrap

from . import faults, places

DESCRIPTION = "The edit relay on the command line: what its proved library and programs answer."
EXAMPLE = "./relay listing examples/two-stations.script"
MORE = "./relay SUBCOMMAND --help tells more of a subcommand, with an example."
WIDTH = 79
FORM = {"formatter_class": argparse.RawDescriptionHelpFormatter, "allow_abbrev": False}


def subcommands():
    """Name -> module, for every module of this folder that can be run."""
    folder = str(pathlib.Path(__file__).parent)
    names = sorted(found.name for found in pkgutil.iter_modules([folder]))
    modules = {name: importlib.import_module(f"{__package__}.{name}") for name in names}
    return {name: module for name, module in modules.items() if hasattr(module, "run")}


def statuses():
    """The exit statuses of all subcommands, in lines."""
    words = "; ".join(f"{number} {words}" for number, words in faults.STATUSES)
    return textwrap.fill(f"exit status: {words}", WIDTH, break_on_hyphens=False)


def subcommand_lines(modules):
    """One line for each subcommand: argparse's own list would not leave room on a screen."""
    return "".join(f"\n    {name:8}  {module.__doc__.splitlines()[0].rstrip('.')}" for name, module in modules.items())


def epilog(modules):
    text = places.spoken(f"subcommands:{subcommand_lines(modules)}\n\nexample:\n    {EXAMPLE}\n{MORE}")
    if places.INSTALLED:
        text += f"\nExamples are for {places.DOCUMENTS}, which has the documents too."
    return f"{text}\n{statuses()}"


def parsers(modules):
    """The parser of the command, and those of the subcommands by name."""
    parser = argparse.ArgumentParser(prog=places.COMMAND, description=DESCRIPTION, epilog=epilog(modules),
                                     usage="%(prog)s SUBCOMMAND ...", add_help=False, **FORM)
    parser.add_argument("-h", "--help", action="help", help=argparse.SUPPRESS)
    choices = parser.add_subparsers(dest="subcommand", metavar="SUBCOMMAND", required=True, help=argparse.SUPPRESS,
                                    prog=places.COMMAND)
    for name, module in modules.items():
        summary, _, rest = module.__doc__.partition("\n")
        one = choices.add_parser(name, description=summary, epilog=places.spoken(rest.strip()), **FORM)
        module.arguments(one)
    return parser, choices.choices


def read_arguments(modules):
    parser, of_subcommands = parsers(modules)
    given, others = parser.parse_known_args()
    if others:
        of_subcommands[given.subcommand].error(f"unrecognized arguments: {' '.join(others)}")
    return given


def said(name, text):
    """A message on standard error; on a terminal its head is red, unless NO_COLOR is set."""
    head = f"relay {name}:"
    if sys.stderr.isatty() and not os.environ.get("NO_COLOR"):
        head = f"\x1b[31m{head}\x1b[0m"
    with contextlib.suppress(OSError):
        print(head, text, file=sys.stderr)


def done(module, given):
    """Runs a subcommand; its status."""
    if sys.stdout is None:
        raise faults.Missing("standard output is closed")
    try:
        status = module.run(given) or 0
        sys.stdout.flush()
        return status
    except OSError as wrong:
        if wrong.filename is not None:
            raise faults.Missing(f"{wrong.filename}: {wrong.strerror}") from None
        # What is left is standard output: a file that cannot be read or written has words of its own.
        os.dup2(os.open(os.devnull, os.O_WRONLY), sys.stdout.fileno())  # what Python still holds goes nowhere
        if isinstance(wrong, BrokenPipeError):
            return 128 + signal.SIGPIPE
        raise faults.Missing(f"cannot write standard output: {wrong.strerror}") from None


def main():
    if sys.stderr is None:
        sys.stderr = open(os.devnull, "w", encoding="utf-8")    # for the rest of the run
    modules = subcommands()
    given = read_arguments(modules)
    try:
        return done(modules[given.subcommand], given)
    except faults.Fault as wrong:
        said(given.subcommand, wrong)
        return wrong.status
    except KeyboardInterrupt:
        return 128 + signal.SIGINT
