"""The model's listing program: a script on standard input, its listing on standard output.

    python3 tests/model_listing.py < examples/two-stations.script
"""

import sys

from model.listing import listing

if __name__ == "__main__":
    sys.stdout.buffer.write(listing(sys.stdin.buffer.read()))
