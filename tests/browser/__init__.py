"""Headless Chromium, driven by tests/check-screen.

    devtools.py   the browser and a page of it, through the DevTools protocol over a pipe
    served.py     the planning screen's server in this process, for one plan or two
"""

import pathlib
import sys

sys.path.append(str(pathlib.Path(__file__).resolve().parents[2] / "tools"))
