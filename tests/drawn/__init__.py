"""What tests/campaign tries: much input drawn from a seed, compared with the model.

    frames.py     frames against the C face of the frame check
    false.c       frame checks that are wrong on purpose, which the campaign must notice
    calls.py      calls on stations and groups against their C face
    false_calls.c calls that are wrong on purpose
    scripts.py    scripts for the listing program: any bytes, damaged scripts, long runs of sixteen stations
"""
