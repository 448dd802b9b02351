"""The planning screen: windows, ends and answers on one page.

Serves the page on 127.0.0.1, for a browser on this machine, and prints its
address; Ctrl+C ends it. The page shows link windows as bars and ends as marks,
answers up to 64 questions with the relay that brings each answer, and lets you
take windows away or add some and see at once what changes. With a second plan
it shows both carriers together and what each station gains. Plans are read
again whenever the page is loaded; nothing is written to their files.

example:
    ./relay screen examples/five-stations.plan
"""

import argparse

from .. import plans
from . import answers


def port(text):
    number = plans.number(text, 65_535)
    if number is None:
        raise argparse.ArgumentTypeError(f"{text!r} is no port: a number from 0 to 65535")
    return number


def arguments(parser):
    parser.add_argument("plan", metavar="PLAN", help="the plan's file; '-' is standard input")
    parser.add_argument("second", nargs="?", metavar="PLAN2", help="the plan of a second carrier")
    parser.add_argument("--port", type=port, default=0, help="the port; without it, or with 0, one that is free")


def run(given):
    from . import server    # it imports much that no other subcommand needs
    named = answers.Named([name for name in (given.plan, given.second) if name is not None])
    named.judge()
    server.serve(named, given.port)
