"""The reference model of the edit relay, written from documents 01 and 02 alone.

Read it beside document 01, in this order:

    refusals.py   "Turned down": the numbers and their names
    bodies.py     "Bodies, labels and records": the kind table
    records.py    the same section: labels, records, the newer decision
    frames.py     "Frame bytes": reading, checking and writing frames
    queues.py     waiting edits and lanes: slots with a length
    station.py    "A station and its calls": state, limits, fresh, post, write frame
    hearing.py    the same section: hear
    turns.py      the same section: turn
    group.py      "A group and its rounds": fresh, post, round
    links.py      the same section: relays and the end rule, from a link log alone
    demand3.py    the same section: the sentences of demand 3, tried on one list of calls
    lines.py      "The relay listing": script lines read, listing lines written
    listing.py    the same section: a script in, a listing out

Of the later requests, document 02:

    forecast.py   A1: the ends of all broadcasts, from a link log
    merge.py      A10: two link logs merged
    questions.py  A11: by which round a broadcast is received
    contest.py    A13: the link contest
    load.py       A5: a script drawn from a seed
    bulletins.py  A12: bulletins beside a group
    replies.py    A14: which edit an entry of an aired list is, and what it stands behind

Beyond the requests:

    delivery.py   by when an accepted edit is aired everywhere

For tests only:

    scripts.py    random lists of calls and scripts, each from its seed
    malformed.py  every malformed form of a script, by name
    states.py     random records, frames, stations and groups inside their limits
    outside.py    stations outside their limits, by name

Every value is a tuple and never changes, so a refused call returns the very state it was given.
"""
