"""The random script of a seed on standard output, as the runs of demand 3 use it.

    python3 tests/model_script.py 17 | python3 tests/model_listing.py
"""

import sys

from model.scripts import seeded_script

if __name__ == "__main__":
    sys.stdout.buffer.write(seeded_script(int(sys.argv[1])))
