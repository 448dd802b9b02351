"""All scripts of small groups: in each round every choice of who hears whom.

What decides a round is which station hears which other one. The bits that no one reads, a station's own and those from N up, are drawn: over all scripts of a
group each of them is met set and not set (`unread` says so).
"""

import itertools
import random

from model.bodies import DROP, INSERT, SHIFT
from model.scripts import script_line


class Small:
    """The scripts of groups of n. Edits wait at every station from the start, and one is posted after each round."""

    def __init__(self, n, seed):
        self.n, self.rng = n, random.Random(f"small {n} {seed}")
        self.met = set()  # the unread bits met: station, bit, value
        self.posts = b"".join(script_line(b"P", (place, kind, 10 * place + kind, argument))
                              for place in range(n) for kind, argument in ((INSERT, 2_699_999), (SHIFT, -90_000)))

    def choices(self):
        """Every choice of who hears whom in one round: one mask a station, without the bits that no one reads."""
        masks = [[mask for mask in range(1 << self.n) if not mask >> place & 1] for place in range(self.n)]
        return list(itertools.product(*masks))

    def round_line(self, heard):
        masks = []
        for place, mask in enumerate(heard):
            unread = 65_536 - (1 << self.n) | 1 << place
            drawn = self.rng.getrandbits(16) & unread
            self.met.update((place, bit, drawn >> bit & 1) for bit in range(16) if unread >> bit & 1)
            masks.append(mask | drawn)
        return script_line(b"R", masks)

    def scripts(self, rounds, before=0, after=0):
        """All scripts with so many rounds; before and after them stand rounds in which everyone hears everyone."""
        everyone = self.choices()[-1]
        for heard in itertools.product(self.choices(), repeat=rounds):
            script = [script_line(b"N", (self.n,)), self.posts]
            for number, masks in enumerate((everyone,) * before + heard + (everyone,) * after):
                script.append(self.round_line(masks))
                script.append(script_line(b"P", (number % self.n, DROP, 100 + number, 0)))
            yield f"{self.n} stations, masks {' / '.join(' '.join(map(str, masks)) for masks in heard)}", b"".join(script)

    def up_to(self, rounds):
        for count in range(rounds + 1):
            yield from self.scripts(count)

    def unread(self):
        """Whether every bit that no one reads was met both set and not set."""
        return len(self.met) == 2 * self.n * (16 - self.n + 1)
