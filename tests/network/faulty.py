"""Hosts that are wrong on purpose: each has one small edit, and every one must be noticed by the runs."""

import pathlib
import subprocess
import tempfile

from . import build, hosts, rounds
from .plan import Plan, Sizes

RUN = Plan("faulty", Sizes(4, 30, 30, 6, 3))
LIVING = Plan("faulty", Sizes(4, 20, 30, 0, 8))
TO_RUN = {"lives": LIVING}

# What is wrong: the file, what stands there, what stands there instead, and the run that notices it, if not the first.
FAULTS = {
    "tells before it saves": (
        "main.c", "    report_sync(&host->report);\n    saved_write(host->options.state, &saved);\n"
        "    report_tell(&host->report, station->text.bytes, station->text.len);\n",
        "    report_tell(&host->report, station->text.bytes, station->text.len);\n    report_sync(&host->report);\n"
        "    saved_write(host->options.state, &saved);\n"),
    "leaves the state's bytes to the system": (
        "saved.c", "if (fsync(made) < 0 || close(made) < 0)", "if (close(made) < 0)"),
    "leaves the state's name to the system": ("saved.c", "folder < 0 || fsync(folder) < 0", "folder < 0"),
    "leaves its report to the system": ("main.c", "    report_sync(&host->report);\n", ""),
    "saves the state but not the lines that are due": ("main.c", ".text_len = station->text.len}", ".text_len = 0}"),
    "saves every other state": (
        "main.c", "    saved_write(host->options.state, &saved);\n",
        "    static int times;\n    if (times++ % 2 == 0)\n        saved_write(host->options.state, &saved);\n"),
    "begins again in the present round": (
        "main.c", "    station->done = last.done;\n",
        "    station->done = last.done;\n"
        "    while (clock_round(&host->clock) == 0)\n        clock_read_beat(&host->clock);\n"
        "    if (found && last.done != 0)\n        station->done = clock_round(&host->clock) - 1;\n"),
    "tells posts before it saves them": (
        "main.c", "        if (host->station.text.len != 0)\n            save_and_tell(host);\n",
        "        report_tell(&host->report, host->station.text.bytes, host->station.text.len);\n"
        "        host->station.text.len = 0;\n", "lives"),
    "hears late frames": ("inbox.c", "if (stamp.round < inbox->open)", "if (stamp.round + 3 < inbox->open)"),
    "drops frames that come before the round opens": ("inbox.h", "ROUNDS_KEPT = 4", "ROUNDS_KEPT = 1", "lives"),
    "keeps what it heard for later rounds": (
        "inbox.c", "        slot(inbox, inbox->open, sender)->len = 0;\n", "        ;\n"),
    "does not look at the tag": (
        "datagram.c", "number_at(datagram, TAG_BYTES))", "number_at(datagram, TAG_BYTES) && len < 5)"),
    "does not look at the run": ("inbox.c", "stamp.run != inbox->run", "0", "lives"),
    "does not look at the address": ("inbox.c", "if (stamp.sender != (uint32_t)peer)", "if (0)", "lives"),
    "does not look at the frame's own sender": ("inbox.c", "engine_sender(frame) != stamp.sender", "0", "lives"),
    "does not check frames": ("inbox.c", "if (refusal != RELAY_DONE) {", "if (refusal > 7) {", "lives"),
    "tells no frame of another edition": (
        "engine.c", "return frame[FRAME_EDITION] != EDITION;", "return frame[FRAME_EDITION] != 1;", "lives"),
    "tells no frame of another n": ("engine.c", "return frame[FRAME_N] != n;", "return n == 0 || frame == 0;", "lives"),
    "takes the later of two frames": (
        "inbox.c", "    if (kept->len != 0)\n", "    if (kept->len != 0 && 0)\n", "lives"),
    "hears by descending sender": (
        "station.c", "for (uint32_t sender = 0; sender < station->n; sender++) {",
        "for (uint32_t sender = station->n; sender-- > 0;) {"),
    "does not hear the last station": (
        "station.c", "for (uint32_t sender = 0; sender < station->n; sender++) {",
        "for (uint32_t sender = 0; sender + 1 < station->n; sender++) {"),
    "reports hearing all that it kept, and hears one": (
        "station.c", "if (kept != NULL && hear(station, sender, kept, &takings)) {",
        "if (kept != NULL && (mask != 0 || hear(station, sender, kept, &takings))) {"),
    "tells no end where Empty starts": (
        "station.c", "    if (turn.ended) {", "    if (turn.ended && turn.started_body.kind != 0) {"),
    "tells refused posts in the next round": ("station.c", "station->done, 'X'", "station->done + 1, 'X'"),
    "sends the frame of the round before": ("main.c", "struct stamp stamp = {host->options.epoch_ms, round,",
                                            "struct stamp stamp = {host->options.epoch_ms, round - 1,"),
}


def compiled(source, folder):
    """A file of the host, with the headers beside it."""
    made = pathlib.Path(folder, f"{source.stem}.o")
    subprocess.run([build.COMPILER, "-std=c11", "-D_GNU_SOURCE", "-O1", "-w", f"-I{build.ROOT / 'include'}",
                    "-c", source, "-o", made], check=True)
    return made


class Objects:
    """The host's files, each compiled once."""

    def __init__(self, folder):
        self.folder = pathlib.Path(folder)
        self.made = {source.name: compiled(source, self.folder) for source in sorted(build.HOST.glob("*.c"))}

    def faulty(self, file, old, new):
        """The host with this edit."""
        with tempfile.TemporaryDirectory(dir=self.folder) as folder:
            made = dict(self.made)
            build.edited(folder, file, old, new)
            changed = sorted(pathlib.Path(folder).glob("*.c")) if file.endswith(".h") else [pathlib.Path(folder, file)]
            for source in changed:
                made[source.name] = compiled(source, folder)
            program = self.folder / "faulty"
            subprocess.run([build.COMPILER, *made.values(), build.archive(), "-o", program], check=True)
        return program


def noticed(program, plan, folder, shim):
    """What is said of this host, or None."""
    run = rounds.Rounds(program, plan, folder, shim)
    try:
        run.go()
        run.check()
    except hosts.Fault as fault:
        return str(fault)
    return None


def try_all(tests, work):
    """Hosts that are right are not blamed, and every faulty one is noticed."""
    objects, unnoticed = Objects(tempfile.mkdtemp(dir=work)), 0
    for plan in (RUN, LIVING):
        with tests.folder() as folder:
            said = noticed(tests.program, plan, folder, tests.shim)
        tests.count(said is None)
        if said:
            print(f"try-host: hosts that are right are blamed: {said}", flush=True)
    for name, (file, old, new, *run) in FAULTS.items():
        program = objects.faulty(file, old, new)
        with tests.folder() as folder:
            said = noticed(program, TO_RUN[run[0]] if run else RUN, folder, tests.shim)
        tests.count(said is not None)
        if not said:
            unnoticed += 1
            print(f"try-host: a host that {name} is not noticed", flush=True)
    print(f"try-host: {len(FAULTS)} hosts that are wrong on purpose, {unnoticed} of them not noticed", flush=True)
