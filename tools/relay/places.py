"""Where the command finds what it needs: in the repository, or below the folder that `./relay install` was given."""

import pathlib
import re

MODULES = pathlib.Path(__file__).resolve().parents[1]   # tools, or PREFIX/share/relay
INSTALLED = MODULES.name != "tools"
ROOT = MODULES.parents[1] if INSTALLED else MODULES.parent
COMMAND = "relay" if INSTALLED else "./relay"
DOCUMENTS = ROOT / "share" / "doc" / "relay" if INSTALLED else ROOT / "docs"
EXAMPLES = DOCUMENTS / "examples" if INSTALLED else ROOT / "examples"
LIBRARY = ROOT / "lib" / "librelay.so"                          # of what is installed
PROGRAM = ROOT / "libexec" / "relay" / "relay_listing"          # likewise


def spoken(text, installed=INSTALLED):
    """A help text, which is written for the repository's top, as it holds here or once it is installed."""
    return re.sub(r"\./relay (?!install)", "relay ", text).replace("docs/", "") if installed else text
