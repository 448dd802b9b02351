"""The colours of the planning screen: told apart by colour-blind people, and readable.

Colour blindness is simulated by the matrices of Machado, Oliveira and Fernandes (2009) for full severity; colours are
compared by their distance in CIE Lab.
"""

import itertools
import re
import unittest

from relay_command import ROOT

TEXT = (ROOT / "tools" / "relay" / "screen" / "picture.js").read_text(encoding="utf-8")
COLOURS = dict(re.findall(r'(\w+): "(#[0-9a-f]{6})"', TEXT))
SIGHTS = {
    "full": ((1, 0, 0), (0, 1, 0), (0, 0, 1)),
    "no red": ((0.152286, 1.052583, -0.204868), (0.114503, 0.786281, 0.099216), (-0.003882, -0.048116, 1.051998)),
    "no green": ((0.367322, 0.860646, -0.227968), (0.280085, 0.672501, 0.047413), (-0.011820, 0.042940, 0.968881)),
    "no blue": ((1.255528, -0.076749, -0.178779), (-0.078411, 0.930809, 0.147602), (0.004733, 0.691367, 0.303900)),
}
APART = 15      # in Lab; a difference of 2 can just be seen side by side
TOGETHER = (("first", "second", "both"), ("broadcast", "open", "end", "relay"), ("firstEnd", "secondEnd", "end"),
            ("window", "relay", "pull", "paper"))


def linear(colour):
    """Red, green and blue from 0 to 1, in proportion to light."""
    values = (int(colour[at:at + 2], 16) / 255 for at in (1, 3, 5))
    return [value / 12.92 if value <= 0.04045 else ((value + 0.055) / 1.055) ** 2.4 for value in values]


def seen(colour, sight):
    return [min(1, max(0, sum(part * value for part, value in zip(row, linear(colour))))) for row in SIGHTS[sight]]


def lab(light):
    red, green, blue = light
    x = (0.4124 * red + 0.3576 * green + 0.1805 * blue) / 0.9505
    y = 0.2126 * red + 0.7152 * green + 0.0722 * blue
    z = (0.0193 * red + 0.1192 * green + 0.9505 * blue) / 1.089
    x, y, z = (value ** (1 / 3) if value > 0.008856 else 7.787 * value + 16 / 116 for value in (x, y, z))
    return 116 * y - 16, 500 * (x - y), 200 * (y - z)


def distance(one, other, sight):
    return sum((a - b) ** 2 for a, b in zip(lab(seen(one, sight)), lab(seen(other, sight)))) ** 0.5


def contrast(one, other):
    """As the accessibility guidelines of the web have it."""
    bright, dark = sorted((sum(part * value for part, value in zip((0.2126, 0.7152, 0.0722), linear(colour)))
                           for colour in (one, other)), reverse=True)
    return (bright + 0.05) / (dark + 0.05)


class Colours(unittest.TestCase):
    def test_apart(self):
        for names in TOGETHER:
            for one, other in itertools.combinations(names, 2):
                for sight in SIGHTS:
                    self.assertGreater(distance(COLOURS[one], COLOURS[other], sight), APART, (one, other, sight))

    def test_readable(self):
        for name in ("text", "faint"):
            for ground in ("paper", "even"):
                self.assertGreater(contrast(COLOURS[name], COLOURS[ground]), 4.5, (name, ground))
        for name in ("end", "firstEnd", "secondEnd", "broadcast", "relay", "cursor"):
            self.assertGreater(contrast(COLOURS[name], COLOURS["paper"]), 3, name)

    def test_noticed(self):
        """The usual red and green would fail."""
        self.assertLess(distance("#c06050", "#80803c", "no green"), APART)


if __name__ == "__main__":
    unittest.main()
