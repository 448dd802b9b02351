"""The subcommands of ./relay, one module each, over the C library.

    command.py    finds the subcommands; arguments, errors and exit statuses
    faults.py     what is wrong, for the user, and the exit statuses
    places.py     where things stand, in the repository and once they are installed
    manual.py     the man page, of the same texts as the help; it stays in the repository, as install.py does
    completion.py   completion for bash, likewise
    library.py    the C library: finds or makes it, and one function for each call
    plans.py      link plans: the N and R lines of a script
    listings.py   listings, mapped into memory, and the words for their faults
    ends.py       the rounds of the ends in a part of a plan, asked of the library
    hearings.py   who hears whom in which rounds, as digits; for the next two
    hops.py       the relay that brings a broadcast, hop by hop
    delta.py      Delta of a plan
    screen        the planning screen: server.py serves it, answers.py has its calls, page.html and page.js its page

A subcommand is a module with `arguments(parser)` and `run(given)`. Its docstring is its help: the first line is the
summary in the list of subcommands.
"""

VERSION = "1.0"
