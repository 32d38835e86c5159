#!/usr/bin/env python3
"""Measures the gate from nothing, and prints a table: a row for each crate.

    python3 bench/gate.py [COMMIT]      # the commit to measure; the newest if none is given

It runs `rt ci --anew` in a fresh clone and looks at the list of processes twice a second, as `top` does.
Each check belongs to a crate and is a proof, a check of tests, or the check of a must-fail edit. The
minutes of a row are those in which one of the crate's checks was running; several crates run side by
side, so they sum to more than the gate takes. It wants an idle machine, and stands outside the gate.
"""

import collections
import os
import resource
import shutil
import subprocess
import sys
import tempfile
import time

TICK = 0.5
TICKS_A_SECOND = os.sysconf("SC_CLK_TCK")
PROOFS, TESTS, EDITS = KINDS = ("proofs", "tests", "edits")
OTHER = "the gate itself, programs"


def read(path):
    """A file's bytes; nothing where the process has ended meanwhile."""
    try:
        with open(path, "rb") as file:
            return file.read()
    except OSError:
        return b""


def folder_of(pid):
    """The folder that a process runs in."""
    try:
        return os.readlink(f"/proc/{pid}/cwd")
    except OSError:
        return ""


def belongs_to(pid):
    """The crate and the kind of work of a process."""
    words = read(f"/proc/{pid}/cmdline").decode(errors="replace").split("\0")
    if "--crate-name" not in words:
        return OTHER, PROOFS
    crate = words[words.index("--crate-name") + 1]
    if "rt-edit" in folder_of(pid):
        return crate, EDITS
    return crate, TESTS if "--test" in words else PROOFS


class Watch:
    """What the processes of one session have used so far."""

    def __init__(self, session):
        self.session = session
        self.used = {}
        self.place = {}
        self.seen = collections.Counter()

    def look(self):
        """Looks at every process of the session once."""
        at_work = set()
        for pid in filter(str.isdigit, os.listdir("/proc")):
            fields = read(f"/proc/{pid}/stat").rpartition(b")")[2].split()
            if len(fields) < 20 or int(fields[3]) != self.session:
                continue
            key = (pid, fields[19])
            # (a process that has just begun may not have its own name yet)
            if self.place.get(key, (OTHER,))[0] == OTHER:
                self.place[key] = belongs_to(pid)
            self.used[key] = (int(fields[11]) + int(fields[12])) / TICKS_A_SECOND
            at_work.add(self.place[key][0])
        self.seen.update(at_work)

    def seconds(self):
        """Processor seconds by crate and kind."""
        sums = collections.Counter()
        for key, seconds in self.used.items():
            sums[self.place[key]] += seconds
        return sums


def minutes(seconds):
    return f"{seconds / 60:.1f}"


def table(watch, whole):
    """The rows, those of most processor time first; what the looks missed is in the last one."""
    sums = watch.seconds()
    crates = sorted({crate for crate, _ in sums if crate != OTHER}, key=lambda crate: -sum(sums[crate, kind] for kind in KINDS))
    told = sum(sums[crate, kind] for crate in crates for kind in KINDS)
    yield "| Crate | Proofs | Tests | Edits | Processor minutes | Minutes |"
    yield "|---|---|---|---|---|---|"
    for crate in crates:
        parts = [sums[crate, kind] for kind in KINDS]
        yield f"| {crate} | {' | '.join(map(minutes, parts))} | {minutes(sum(parts))} | {minutes(watch.seen[crate] * TICK)} |"
    yield f"| {OTHER} | | | | {minutes(whole - told)} | |"
    by_kind = [sum(sums[crate, kind] for crate in crates) for kind in KINDS]
    yield f"| all | {' | '.join(map(minutes, by_kind))} | {minutes(whole)} | |"


def main():
    top = os.path.join(os.path.dirname(os.path.abspath(__file__)), "..")
    commit = subprocess.check_output(["git", "rev-parse", *(sys.argv[1:] or ["HEAD"])], cwd=top, text=True).strip()
    room = tempfile.mkdtemp(prefix="gate-")
    try:
        clone = f"{room}/clone"
        subprocess.check_call(["git", "clone", "-q", top, clone])
        subprocess.check_call(["git", "checkout", "-q", commit], cwd=clone)
        begun = time.monotonic()
        with open(f"{room}/log", "w+") as log:
            gate = subprocess.Popen(["rt", "ci", "--anew"], cwd=clone, stdout=log, stderr=log, start_new_session=True)
            watch = Watch(gate.pid)
            while gate.poll() is None:
                watch.look()
                time.sleep(TICK)
            log.seek(0)
            last = log.read().splitlines()[-1:]
        used = resource.getrusage(resource.RUSAGE_CHILDREN)
        whole = used.ru_utime + used.ru_stime
        print(f"{commit[:7]} on {os.cpu_count()} processors: {minutes(time.monotonic() - begun)} minutes, {minutes(whole)} processor minutes; {' '.join(last)}")
        print("\n".join(table(watch, whole)))
        return gate.returncode
    finally:
        shutil.rmtree(room, ignore_errors=True)


if __name__ == "__main__":
    sys.exit(main())
