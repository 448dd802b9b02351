"""A script damaged in one place."""


def damaged(rng, script):
    """One byte or line changed, lost, doubled or moved, or the rest cut off."""
    if not script:
        return script
    at, other = sorted((rng.randrange(len(script)), rng.randrange(len(script))))
    byte = bytes([rng.choice(b"0123456789 -\n\r\tNPRq\x00\xff")])
    lines = script.splitlines(keepends=True)
    line, place = rng.randrange(len(lines)), rng.randrange(len(lines))
    moved = lines[:line] + lines[line + 1:]
    return rng.choice((
        script[:at] + byte + script[at + 1:], script[:at] + byte + script[at:], script[:at] + script[at + 1:],
        script[:at], script[:at] + script[other:],
        b"".join(lines[:line + 1] + lines[line:]), b"".join(moved), b"".join(moved[:place] + [lines[line]] + moved[place:])))
