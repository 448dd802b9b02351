"""The commands of docs/HOST.md, as they stand there, but for the folder, the addresses, and times that are shorter."""

import re
import subprocess
import time

from .build import ROOT
from .hosts import Fault
from .links import network
from .plan import Plan, Sizes
from .rounds import Rounds

ROUNDS = 40
SHORTER = {"+ 30": "+ 1", "--round-ms 1000": f"--round-ms 100 --rounds {ROUNDS}"}
SECONDS = 90


def blocks(folder):
    """The document's three blocks of commands."""
    text = (ROOT / "docs" / "HOST.md").read_text(encoding="utf-8")
    found = re.findall(r"(?s)^```sh\n(.*?)^```", text, re.MULTILINE)
    places = {"target/group": str(folder), "127.0.0.1": f"{network()}.1", "target/host": f"{folder}/host",
              "examples/host/build": f"examples/host/build {folder}/host"}
    for old, new in {**SHORTER, **places}.items():
        if not any(old in block for block in found):
            raise Fault(f"docs/HOST.md has no {old!r}")
        found = [block.replace(old, new) for block in found]
    if len(found) != 3:
        raise Fault(f"docs/HOST.md has {len(found)} blocks of commands, not three")
    return found


def shell(block):
    done = subprocess.run(["bash", "-euc", block], cwd=ROOT, capture_output=True, text=True, timeout=SECONDS,
                          check=False)
    if done.returncode:
        raise Fault(f"docs/HOST.md: the commands end with {done.returncode}: {done.stderr[-500:]}")
    return done.stdout


def start(block, station, folder):
    with open(folder / f"{station}.out", "ab") as out, open(folder / f"{station}.err", "ab") as err:
        return subprocess.Popen(["bash", "-euc", f"k={station}; exec {block}"], cwd=ROOT, stdin=subprocess.PIPE,
                                stdout=out, stderr=err, text=True)


def follow(_, folder):
    """Four stations; posts at two of them; one is killed and begins again; all end, and they told one listing."""
    first, host, last = blocks(folder)
    shell(first)
    running = [start(host, k, folder) for k in range(4)]
    try:
        for k, post in ((0, "insert 7 100\n"), (2, "drop 7\n")):
            running[k].stdin.write(post)
            running[k].stdin.flush()
        time.sleep(2.5)
        while not (folder / "3.state").exists() and running[3].poll() is None:
            time.sleep(0.1)
        running[3].kill()
        running[3].wait()
        running[3].stdin.close()
        running[3] = start(host.replace(" --fresh", ""), 3, folder)
        for k, process in enumerate(running):
            if process.wait(SECONDS) != 0:
                said = (folder / f"{k}.err").read_text(encoding="utf-8")[-500:]
                raise Fault(f"docs/HOST.md: station {k} ends with {process.returncode}: {said}")
    finally:
        for process in running:
            process.kill()
            process.wait()
            process.stdin.close()
    said = shell(last)
    if not said.startswith(f"equal: {ROUNDS} rounds"):
        raise Fault(f"docs/HOST.md: the reports are {said!r}")


def pictured(tests, folder):
    """The run of the document's picture, made again, is the script that the picture was drawn of."""
    run = Rounds(tests.program, Plan("a", Sizes(4, 16, 15, 1, calm=True)), folder, tests.shim)
    run.go()
    script, _ = run.check()
    if script != (ROOT / "examples" / "killed-station.script").read_text(encoding="ascii"):
        raise Fault(f"docs/HOST.md: the picture's run is another now:\n{script}")
    away = "".join("%d %d %d\n" % one for one in run.away)
    if away != (ROOT / "examples" / "killed-station.away").read_text(encoding="ascii"):
        raise Fault(f"docs/HOST.md: in the picture's run stations are away in other rounds now: {away}")


def try_all(tests):
    for part in follow, pictured:
        with tests.folder() as folder:
            try:
                part(tests, folder)
                good = True
            except Fault as fault:
                print(f"try-host: {fault}", flush=True)
                good = False
        tests.count(good)
    print("try-host: the commands of docs/HOST.md, and its picture's run", flush=True)
