"""The command that makes one script and one listing of the reports of all stations (examples/host/record)."""

import os
import pathlib
import subprocess
import sys
import tempfile
import unittest

from model import listing

ROOT = pathlib.Path(__file__).resolve().parent.parent
RECORD = ROOT / "examples" / "host" / "record"
KILLED = (ROOT / "examples" / "killed-station.script").read_bytes()
MODEL = f"{sys.executable} tests/model_listing.py"


def reports_of(script):
    """What each station of a script without refused posts would report: its posts, its masks and its lines."""
    lines, told = script.decode().splitlines(), listing.listing(script).decode().splitlines()[:-1]
    found, number = [[] for _ in range(int(lines[0][1:]))], 0
    for line in lines[1:]:
        if line[0] == "P":
            found[int(line[1:10])].append(line)
            continue
        number += 1
        for station, report in enumerate(found):
            report.append(f"R{int(line[1 + 9 * station:10 + 9 * station]):9d}")
            report += [one for one in told if (int(one[:6]), int(one[8:11])) == (number, station)]
    return ["".join(f"{line}\n" for line in report) for report in found]


def run(texts, *options):
    """The finished command on reports."""
    with tempfile.TemporaryDirectory() as folder:
        files = [pathlib.Path(folder, f"{k}.report") for k in range(len(texts))]
        for file, text in zip(files, texts):
            file.write_text(text, encoding="ascii")
        return subprocess.run([sys.executable, RECORD, *options, *files], capture_output=True, text=True, check=False,
                              env={**os.environ, "RELAY_LISTING": MODEL})


class Record(unittest.TestCase):
    def test_script_and_listing(self):
        texts = reports_of(KILLED)
        self.assertEqual(run(texts).stdout.encode(), KILLED)
        self.assertEqual(run(texts, "--listing").stdout.encode(), listing.listing(KILLED))
        self.assertIn("equal: 16 rounds", run(texts, "--compare").stdout)

    def test_rounds_that_all_have(self):
        """A station that is behind: counted are the rounds that all have closed."""
        texts = reports_of(KILLED)
        texts[2] = texts[2][:texts[2].index("R", texts[2].index("R") + 1)]
        done = run(texts, "--compare")
        self.assertEqual((done.returncode, done.stdout.split(",")[0]), (0, "equal: 1 rounds"))

    def test_differences(self):
        """A line less, a line more, another letter, and stations in another order."""
        texts = reports_of(KILLED)
        at = texts[0].index(" A ") - 6
        aired = texts[0][at:texts[0].index("\n", at) + 1]
        for other in ("", 2 * aired, aired.replace(" A ", " D ")):
            done = run([texts[0].replace(aired, other, 1), *texts[1:]], "--compare")
            self.assertEqual((done.returncode, done.stdout), (3, ""))
            self.assertRegex(done.stderr, r"^record: line \d+: the listing has .*, the stations told ")
        self.assertEqual(run([texts[1], texts[0], *texts[2:]], "--compare").returncode, 3)

    def test_what_is_no_report(self):
        texts = reports_of(KILLED)
        early = "     1 D  0  0 1        0        0\n"
        for wrong in ("END\n", early, texts[0][:-1], texts[0] + "x\n", texts[0] + "\n"):
            done = run([wrong, *texts[1:]])
            self.assertEqual((done.returncode, done.stdout), (3, ""), wrong[:40])
            self.assertTrue(done.stderr.startswith("record: "))
        done = subprocess.run([sys.executable, RECORD, "/nowhere"], capture_output=True, text=True, check=False)
        self.assertEqual((done.returncode, done.stdout), (1, ""))


if __name__ == "__main__":
    unittest.main()
