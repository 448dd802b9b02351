"""Counts what agrees and prints what differs."""

SHOWN = 5  # of one comparison

passed = failed = 0


def agree(name, cases):
    """One comparison of several cases, each a name, what the model has and what the peer has."""
    global passed, failed
    different = [case for case in cases if case[1] != case[2]]
    for case, expected, got in different[:SHOWN]:
        print(f"check-peer: {name}, {case}: the model has {short(expected)}, the peer {short(got)}")
    if different:
        failed += 1
        print(f"check-peer: {name}: {len(different)} cases differ")
    else:
        passed += 1


def short(value):
    text = str(value)
    return text if len(text) < 400 else text[:400] + ".."
