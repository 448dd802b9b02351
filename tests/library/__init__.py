"""The C library's calls against the model, from Python; tests/check-forecast and its like run them.

    rooms.py      lent buffers between pages that cannot be touched
    compare.py    a call beside the model's, case by case; calls that are wrong on purpose
    logs.py       link logs: all of small groups, drawn ones, damaged ones
    listings.py   listings: of drawn scripts, of drawn edits, and the bytes that damage them
    formats.py    stations, groups and reports as bytes, from include/relay.h
    answers.py    the model's answer to each call on bytes
    cases.py, station_cases.py, group_cases.py    states, frames and buffers for these calls
    wrong_calls.py    those that are wrong on purpose
"""

import pathlib
import sys

sys.path.append(str(pathlib.Path(__file__).resolve().parents[2] / "tools"))
