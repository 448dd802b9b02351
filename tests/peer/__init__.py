"""The comparison of the peers under bench/ with the model; tests/check-peer runs it.

    built.py      the peers as they are built, called from here
    values.py     states and answers as bytes
    compare.py    counting what agrees, printing what differs
    listings.py   scripts and their listings
    frames.py     frame checks
    loads.py      calls of the load generator
    calls.py      single calls on states that need not come from a fresh group
"""
