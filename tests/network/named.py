"""What a host does with wrong options, files and states, and with posts of every form; one host at a time."""

import os
import pathlib
import subprocess
import tempfile
import time

from . import datagrams, siphash
from .hosts import Fault, Host
from .links import PORT, Links, network, received
from .rounds import RUN

SECONDS = 60
TESTS = []


def test(function):
    TESTS.append(function)
    return function


def must(holds, what):
    if not holds:
        raise Fault(what)


class Alone:
    """A folder for station 1 of two, whose other station is the test. Rounds are told."""

    def __init__(self, program, shim, folder):
        self.program, self.shim, self.folder = program, shim, pathlib.Path(folder)
        self.state, self.report = self.folder / "1.state", self.folder / "1.report"
        self.other, self.own = f"{network()}.1", f"{network()}.2"
        self.write("peers", f"0 {self.other} {PORT}\n1 {self.own} {PORT}\n")

    def write(self, name, text):
        (self.folder / name).write_text(text, encoding="ascii")

    def words(self, **changed):
        """The command line; an option of None is left out, and one of True has no value."""
        options = {"station": 1, "n": 2, "peers": self.folder / "peers", "epoch-ms": RUN, "round-ms": 1,
                   "state": self.state, "report": self.report, "rounds": 5}
        options |= {name.replace("_", "-"): value for name, value in changed.items()}
        for name, value in options.items():
            if value is not None:
                yield from [f"--{name}"] if value is True else [f"--{name}", str(value)]

    def run(self, posts="", **changed):
        """A host by the clock, whose rounds are all over: it closes them and ends."""
        return subprocess.run([self.program, *self.words(**changed)], input=posts, capture_output=True, text=True,
                              timeout=SECONDS, check=False)

    def told(self):
        """A host whose rounds are told."""
        (self.folder / "1.peers").write_bytes((self.folder / "peers").read_bytes())
        options = ["--n", "2", "--epoch-ms", str(RUN), "--round-ms", "1", "--rounds", "9"]
        return Host(self.program, self.folder, 1, options)

    def ends(self, status, words, **changed):
        done = self.run(**changed)
        must(done.returncode == status, f"it ends with {done.returncode}, not {status}: {done.stderr}")
        must(words in done.stderr, f"it does not say {words!r}, but {done.stderr!r}")

    def lived(self, rounds=5):
        """A station that has closed so many rounds."""
        done = self.run(fresh=True, rounds=rounds)
        must(done.returncode == 0, f"it ends with {done.returncode}: {done.stderr}")


@test
def hashes_as_published(alone):
    """The example of SipHash's authors: the tag of 00 to 0e with the key 00 to 0f."""
    del alone
    must(siphash.siphash(bytes(range(16)), bytes(range(15))) == 0xA129CA6149BE45E5, "not the published tag")


@test
def begins_fresh_and_goes_on(alone):
    alone.lived(3)
    before = alone.report.read_text(encoding="ascii")
    must(before == "R        0\n" * 3, f"the report is {before!r}")
    must(alone.run(rounds=7).returncode == 0, "it does not go on")
    must(alone.report.read_text(encoding="ascii") == "R        0\n" * 7, "rounds are missing or doubled")
    must(alone.run(rounds=7).returncode == 0, "it does not end at once where all rounds are closed")


@test
def needs_its_state(alone):
    alone.ends(3, "there is no")
    alone.lived()
    alone.ends(2, "is there already", fresh=True)


@test
def refuses_the_state_of_another(alone):
    alone.lived()
    alone.ends(3, "is of station 1 of 2", epoch_ms=RUN + 1)
    alone.ends(3, "is of station 1 of 2", n=3)
    alone.ends(3, "is of station 1 of 2", station=0)


@test
def refuses_a_damaged_state(alone):
    alone.lived()
    whole = alone.state.read_bytes()
    places = 0, 8, 16, 20, 21, 22, 24, 32, 36, 40, 41, 500, len(whole) - 1
    cases = [whole[:at] + bytes([whole[at] ^ 1]) + whole[at + 1:] for at in places]
    for case in [*cases, whole[:-1], whole + b"\0", whole[:30], b""]:
        alone.state.write_bytes(case)
        alone.ends(3, "1.state is", rounds=9)
        must(alone.state.read_bytes() == case, "it changed a state that it refused")
    alone.state.write_bytes(whole)
    must(alone.run(rounds=9).returncode == 0, "it does not go on from its state")


@test
def refuses_a_state_older_than_its_report(alone):
    alone.lived(3)
    old = alone.state.read_bytes()
    must(alone.run(rounds=6).returncode == 0, "it does not go on")
    alone.state.write_bytes(old)
    alone.ends(3, "older than", rounds=9)
    alone.state.unlink()
    alone.ends(3, "older than", fresh=True)


@test
def goes_on_after_its_report_was_cut(alone):
    alone.lived(3)
    must(alone.run(rounds=5).returncode == 0, "it does not go on")
    alone.report.write_text("R        0\n", encoding="ascii")
    done = alone.run(rounds=7)
    must(done.returncode == 0 and "has lost" in done.stderr, f"it says {done.stderr!r}")


@test
def is_alone_on_its_state(alone):
    words = alone.words(fresh=True, epoch_ms=2 * RUN)
    with subprocess.Popen([alone.program, *words], stdin=subprocess.PIPE, stderr=subprocess.PIPE) as first:
        late = time.monotonic() + SECONDS
        while not alone.state.exists() and time.monotonic() < late:
            time.sleep(0.01)
        alone.ends(2, "another host runs")
        first.kill()


OWN_LINE, OTHER_LINE = "1 127.77.0.2 7100\n", "0 127.77.0.1 7100\n"
WRONG_PEERS = (("1 127.77.0.2\n", "line 1"), (OTHER_LINE, "0 lines of station 1"),
               (OWN_LINE * 2, "2 lines of station 1"),
               ("# none\n\n2 127.77.0.1 7100\n", "line 3"), ("1 127.77.0.2 7100 more\n", "line 1"),
               ("1 127.77.0.2 port\n", "line 1"), ("x 127.77.0.2 7100\n", "line 1"),
               (OWN_LINE + OTHER_LINE * 65, "line 66: more than 64"),
               (OWN_LINE[:-1] + " " * 1100 + "\n", "line 1: longer"))


@test
def says_what_is_wrong_with_peers(alone):
    for text, words in WRONG_PEERS:
        alone.write("peers", text)
        alone.ends(2, words, fresh=True)
    alone.ends(1, "cannot read", peers=alone.folder / "nothing", fresh=True)
    alone.write("peers", f"1 {alone.own} {PORT}   # itself, and no link")
    alone.lived()


@test
def says_what_is_wrong_with_options(alone):
    for name, value in (("station", "2"), ("station", "-1"), ("station", "x"), ("n", "0"), ("n", "17"),
                        ("round_ms", "0"), ("rounds", "1000000"), ("epoch_ms", "0"),
                        ("epoch_ms", "99999999999999999999"), ("state", None), ("n", None), ("no_such", True)):
        done = alone.run(fresh=True, **{name: value})
        must(done.returncode == 2 and done.stderr, f"--{name} {value}: it ends with {done.returncode}")
    alone.write("key", "00112233445566778899aabbccddee\n")
    alone.ends(2, "not 32 hexadecimal", key=alone.folder / "key", fresh=True)
    alone.ends(1, "cannot open", state=alone.folder / "nothing" / "state", fresh=True)
    alone.ends(1, "cannot open", report=alone.folder / "nothing" / "report", fresh=True)
    must(alone.run(help=True).stdout.startswith("usage: host"), "--help does not help")


POSTS = (("insert 7 100", "P        1        2        7      100"), ("drop 7", "P        1        3        7        0"),
         (" shift  12\t-1500 ", "P        1        4       12    -1500"),
         ("2 999999999 999999999", "P        1        2999999999999999999"),
         ("0 0", "P        1        0        0        0"), ("4 1 -99999999", "P        1        4        1-99999999"),
         ("insert", None), ("insert 7 100 1", None), ("2 1000000000 0", None), ("2 7 -100000000", None),
         ("-1 7 7", None), ("drop x", None), ("2 7 1e3", None), ("\0insert 7 100", None), ("", None),
         ("2 7 9999999999999999999999", None), ("x" * 3000, None),
         ("insert 8 1", "P        1        2        8        1"))


@test
def takes_posts_of_every_form(alone):
    """Posts come before round 1 opens. The last has no line end, so it is none."""
    host = alone.told()
    host.start()
    host.process.stdin.write(("\n".join(line for line, _ in POSTS) + "\ninsert 9 1").encode())
    late = time.monotonic() + SECONDS
    while not (alone.report.exists() and POSTS[-1][1] in alone.report.read_text(encoding="ascii")):
        must(time.monotonic() < late and host.alive, f"it does not take all posts: {host.said()}")
        time.sleep(0.02)
    host.beat(10)
    must(host.gone() == 0, f"it does not end well: {host.said()}")
    told = [line for line in alone.report.read_text(encoding="ascii").splitlines() if line[0] == "P"]
    must(told == [line for _, line in POSTS if line], f"it took the posts {told}")
    refused = [line for line in host.file("out").read_text(encoding="ascii").splitlines() if line[7:8] == "X"]
    must(refused == ["     0 X  1  4 0        0        0"] * 3, f"it refused {refused}")


@test
def stays_silent_where_it_has_no_frame(alone):
    """False frames under the right key raise its count above what a frame may carry; it goes on, and ends in time."""
    face = Links.bound((alone.other, PORT))
    host, sent = alone.told(), []
    host.start()
    for number in range(1, 10):
        host.beat(number)
        while number not in host.told():
            pass
        sent.append(received(face) is not None)
        label = number % 3
        frame = bytes([2, 0, 1, 0, 0, 0, 0, 0]) + bytes(8) + bytes([label, 0, 0, 0])
        face.sendto(datagrams.seal(bytes(16), RUN, number, 0, frame), (alone.own, PORT))
    host.beat(10)
    status = host.gone()
    face.close()
    must(status == 0, f"it ends with {status}: {host.said()}")
    must(sent[:3] == [True] * 3 and not sent[-1], f"it sent frames in these rounds: {sent}")
    must("no frame to send: 10" in host.said(), f"it says {host.said()!r}")


def rounds_closed(alone):
    return alone.report.read_text(encoding="ascii").count("R") if alone.report.exists() else 0


def waits_for(alone, rounds):
    """Whether so many rounds are closed in time."""
    late = time.monotonic() + SECONDS
    while rounds_closed(alone) < rounds and time.monotonic() < late:
        time.sleep(0.02)
    return rounds_closed(alone) >= rounds


def stands_still(alone):
    """Whether no round is closed for five rounds' time; soon, for the one that was open may still be closed."""
    for _ in range(4):
        before = rounds_closed(alone)
        time.sleep(0.5)
        if rounds_closed(alone) == before:
            return True
    return False


@test
def follows_a_clock_that_is_set(alone):
    """Set forward by 100 rounds it closes them; set back by 50 it waits; then it goes on where it was."""
    alone.write("clock", "0")
    words = alone.words(fresh=True, epoch_ms=int(time.time() * 1000), round_ms=100, rounds=999)
    watched = os.environ | {"LD_PRELOAD": str(alone.shim), "RELAY_CLOCK": str(alone.folder / "clock")}
    with subprocess.Popen([alone.program, *words], stdin=subprocess.PIPE, stderr=subprocess.PIPE, env=watched) as host:
        try:
            must(waits_for(alone, 1), "it closes no round")
            alone.write("clock", "10000")
            must(waits_for(alone, 101), "it does not close the rounds that the clock has passed")
            alone.write("clock", "5000")
            must(stands_still(alone), "it closes rounds that the clock has not come to again")
            must(host.poll() is None, "it has ended")
            alone.write("clock", "20000")
            must(waits_for(alone, 201), "it does not go on")
        finally:
            host.kill()


@test
def hears_one_of_two_carriers(alone):
    """Two lines for the other station: frames go to both, and what comes from both counts once."""
    faces = [Links.bound((alone.other, PORT)), Links.bound((f"{network()}.3", PORT))]
    alone.write("peers", f"0 {alone.other} {PORT}\n0 {network()}.3 {PORT}\n1 {alone.own} {PORT}\n")
    host = alone.told()
    host.start()
    host.beat(1)
    must(host.told() == [1], "it sends no frame")
    sent = [received(face) for face in faces]
    must(sent[0] is not None and sent[1] is not None and sent[0][0] == sent[1][0], "it does not send to both carriers")
    frame = bytes([2, 0, 1, 0, 0, 0, 0, 0]) + bytes(8) + bytes([1, 0, 0, 0])
    for face in faces:
        face.sendto(datagrams.seal(bytes(16), RUN, 1, 0, frame), (alone.own, PORT))
        face.close()
    host.beat(10)
    must(host.gone() == 0, f"it does not end well: {host.said()}")
    told = host.status()
    must((told["kept"], told["repeated"], told["heard"]) == (1, 1, 1), f"it tells {told}")


def try_all(tests):
    for each in TESTS:
        name = each.__name__.replace("_", " ")
        with tempfile.TemporaryDirectory() as folder:
            try:
                each(Alone(tests.program, tests.shim, folder))
            except (Fault, subprocess.TimeoutExpired) as fault:
                print(f"try-host: a host {name}: {fault}", flush=True)
                tests.count(False)
                continue
        tests.count(True)
    print(f"try-host: {len(TESTS)} named tests of one host", flush=True)
