"""The comparison of the listing program with the model; tests/check-listing and tests/campaign run it.

    command.py    the program run on a script, given whole or in parts
    compare.py    counting what agrees, saying what differs and keeping its script
    named.py      scripts by name: examples, malformed lines, posts, queues, silences, seeds
    swept.py      every byte, every length and every count of numbers at their places in a line
    small.py      all scripts of small groups
    damaged.py    a script damaged in one place
    parts.py      scripts given in parts, and scripts that end where a buffer may
    rounds.py     the script that goes past round 999,999, and what memory long scripts take
    wrong.py      programs that are wrong on purpose: the comparison must notice each
"""
