#!/usr/bin/env python3
"""Runs the gate from nothing and prints what it costs, crate by crate: bench/gate.py [CRATE..]

Processor minutes of a crate's own proofs, of the proofs of its tests, and of its wrong bodies, as /proc tells them of each
process of the prover, five times a second. What a process does after the last look isn't counted, so a figure is a little
low. Without names it takes all crates. It ends as the gate does.
"""
import os
import subprocess
import sys
import tempfile
import time
from collections import Counter
from pathlib import Path

TOP = Path(__file__).resolve().parent.parent
TICKS = os.sysconf("SC_CLK_TCK") * 60
KINDS = ("own", "tests", "wrong bodies")


def processes():
    """Each process: its parent, when it started, and the processor minutes that it had."""
    found = {}
    for folder in Path("/proc").glob("[0-9]*"):
        try:
            words = (folder / "stat").read_text().rpartition(")")[2].split()
        except OSError:
            continue  # it ended
        found[int(folder.name)] = (int(words[1]), words[19], (int(words[11]) + int(words[12])) / TICKS)
    return found


def stands_under(process, root, found):
    while process in found and process != root:
        process = found[process][0]
    return process == root


def job(process):
    """The crate and the kind of what a process checks, or None where it isn't the prover's."""
    try:
        words = Path(f"/proc/{process}/cmdline").read_text().split("\0")
        folder = os.readlink(f"/proc/{process}/cwd")
    except OSError:
        return None
    if Path(words[0]).name != "rattle" or "--crate-name" not in words:
        return None
    crate = words[words.index("--crate-name") + 1]
    # A wrong body is checked in a copy of its crate.
    kind = 2 if "rt-edit" in folder else int("--test" in words)
    return crate, kind


def watch(gate):
    """The processor minutes of each crate and kind, up to the gate's end."""
    jobs, minutes = {}, {}
    while gate.poll() is None:
        found = processes()
        for process, (_, start, spent) in found.items():
            key = process, start
            if key not in jobs and stands_under(process, gate.pid, found):
                jobs[key] = job(process)
            if jobs.get(key):
                minutes[key] = spent
        time.sleep(0.2)
    sums = Counter()
    for key, spent in minutes.items():
        sums[jobs[key]] += spent
    return sums


def main(names):
    with tempfile.TemporaryFile("w+") as out:
        gate = subprocess.Popen(["rt", "ci", "--anew", *names], cwd=TOP, stdout=out, stderr=subprocess.STDOUT)
        sums = watch(gate)
        out.seek(0)
        last = out.read().splitlines()[-1]
    print(f"{'processor minutes':18}" + "".join(f"{kind:>14}" for kind in KINDS))
    for crate in sorted({crate for crate, _ in sums}):
        print(f"{crate:18}" + "".join(f"{sums[crate, kind]:14.1f}" for kind in range(len(KINDS))))
    print(f"{'all':18}" + "".join(f"{sum(v for (_, k), v in sums.items() if k == kind):14.1f}" for kind in range(len(KINDS))))
    print(last)
    sys.exit(gate.returncode)


if __name__ == "__main__":
    main(sys.argv[1:])
