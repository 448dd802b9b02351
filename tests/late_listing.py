"""The model's listing of a script in which one frame is heard late, which document 01 forbids (H4).

    python3 tests/late_listing.py SCRIPT ROUND HEARER SENDER WRITTEN

In round ROUND station HEARER hears the frame that station SENDER wrote in round WRITTEN, in place of the one of ROUND.
The last line tells how many frames the stations refused.
"""

import pathlib
import sys

from model.late import LateRun
from model.lines import PostLine, RoundLine, SizeLine, read_line
from model.listing import LIMIT


def late_run(script, number, hearer, sender, written):
    """The run of a script, which has to be well formed."""
    run = None
    for line in script.splitlines():
        command = read_line(line, run.n if run else None)
        if isinstance(command, SizeLine):
            run = LateRun(command.n, LIMIT)
        elif isinstance(command, PostLine):
            run.post(command.station, command.body)
        elif isinstance(command, RoundLine):
            late = {(hearer, sender): written} if len(run.log) + 1 == number else {}
            run.late_round(command.masks, late)
    return run


if __name__ == "__main__":
    if len(sys.argv) != 6:
        sys.exit(__doc__)
    done = late_run(pathlib.Path(sys.argv[1]).read_bytes(), *map(int, sys.argv[2:]))
    sys.stdout.buffer.write(b"".join(done.lines))
    print(f"{len(done.dropped)} frames refused")
