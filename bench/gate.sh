#!/bin/sh
# Runs the gate and prints what it costs: for each crate the processor minutes of its proof, of its must-fail edits (the
# check that they begin with and each edit) and of its tests, and how long the whole took. The figures are those of what
# was proved in this run: `bench/gate.sh` runs `rt ci`, which takes over what earlier runs on this machine passed, and
# `bench/gate.sh --anew` proves all from nothing. They are read from /proc, so Linux and Python 3 are wanted.
set -eu
cd "$(dirname "$0")/.."
exec python3 - "$@" << 'PYTHON'
import os
import re
import subprocess
import sys
import time

TICKS = os.sysconf("SC_CLK_TCK")
KINDS = ("proof", "edits", "tests")


def processes():
    return [int(name) for name in os.listdir("/proc") if name.isdigit()]


def read(path):
    with open(path, "rb") as file:
        return file.read().decode(errors="replace")


def stat_of(pid):
    """The parent of a process, when it began, and the ticks that it took."""
    fields = read(f"/proc/{pid}/stat").rpartition(")")[2].split()
    return int(fields[1]), fields[19], int(fields[11]) + int(fields[12])


def words_of(pid):
    return read(f"/proc/{pid}/cmdline").split("\0")


def check_of(pid, top):
    """The crate for whose check a process works and what that is for, or None where it is of no check of this run."""
    check = None
    while pid > 1 and pid != top:
        words = words_of(pid)
        if check is None and words[0].endswith("/rattle") and "--crate-name" in words:
            crate = words[words.index("--crate-name") + 1]
            is_edit = "rt-edit" in os.readlink(f"/proc/{pid}/cwd")
            check = crate, "edits" if is_edit else "tests" if "--test" in words else "proof"
        pid = stat_of(pid)[0]
    return check if pid == top else None


def look(top, taken):
    for pid in processes():
        try:
            check = check_of(pid, top)
            if check:
                _, begun, ticks = stat_of(pid)
                taken[(pid, begun)] = (check, ticks)
        except (OSError, ValueError, IndexError):
            # it ended while it was looked at
            continue


def minutes(taken, crate, kind):
    return sum(ticks for check, ticks in taken.values() if check == (crate, kind)) / TICKS / 60


def report(taken, seconds):
    crates = [line.split(":")[0].split()[0] for line in open("crates.txt") if re.match(r"[a-z]", line)]
    print(f"{'crate':24}" + "".join(f"{kind:>8}" for kind in KINDS) + f"{'all':>8}")
    total = dict.fromkeys(KINDS, 0.0)
    for crate in crates:
        row = [minutes(taken, crate, kind) for kind in KINDS]
        for kind, number in zip(KINDS, row):
            total[kind] += number
        print(f"{crate:24}" + "".join(f"{number:8.1f}" for number in row) + f"{sum(row):8.1f}")
    row = list(total.values())
    print(f"{'all':24}" + "".join(f"{number:8.1f}" for number in row) + f"{sum(row):8.1f}")
    print(f"{seconds / 60:.1f} minutes on {os.cpu_count()} processors")


def main():
    begun = time.monotonic()
    gate = subprocess.Popen(["rt", "ci", *sys.argv[1:]])
    taken = {}
    while gate.poll() is None:
        look(gate.pid, taken)
        time.sleep(0.3)
    report(taken, time.monotonic() - begun)
    return gate.returncode


sys.exit(main())
PYTHON
