"""Long scripts for the listing: a number of rounds at N = 16 with a post before every eighth round, as bench/README.md says.

    python3 bench/listing_script.py full-mesh 100000 > long.script
"""

import sys

N = 16
POST_EVERY = 8


def line(letter, numbers):
    return letter + "".join(f"{number:9}" for number in numbers) + "\n"


def full_mesh(_round):
    return [65_535] * N


def sparse(number):
    """A station hears its neighbour and one other, another in each round."""
    return [1 << (i + 1) % N | 1 << (i + number) % N for i in range(N)]


LINKS = {"full-mesh": full_mesh, "sparse": sparse}


def script(links, rounds):
    """The script's lines."""
    cycle = [line("R", LINKS[links](number)) for number in range(N)]
    yield line("N", [N])
    for number in range(rounds):
        if number % POST_EVERY == 0:
            post = number // POST_EVERY
            yield line("P", [post % N, 2, 1 + post, post % 1_000_000])
        yield cycle[number % N]


if __name__ == "__main__":
    sys.stdout.writelines(script(sys.argv[1], int(sys.argv[2])))
