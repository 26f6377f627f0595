#!/usr/bin/env python3
"""Times the program beside the C++ library: bench/compare.py [--seed N] [--runs N] [--mb N] [--workers 1,2,4] [SHAPE..]

Whole processes over the same frames, in turns, best of several runs: the program as ./arena runs it, and bench/cpp/cat.cc
over protoc's classes and over dynamic messages. All outputs have to agree. For each shape, worker count and kind of pages
it prints the program's time and MB/s of input, its time and peak memory over those of both C++ programs, and the peaks.
Where C++ isn't there, the program's own figures are printed alone.
"""
import argparse
import filecmp
import os
import subprocess
import sys
import tempfile
from pathlib import Path

sys.dont_write_bytecode = True
from measure import BENCH, HUGE, HUGE_FOR_ALL, best, program, timed
from shapes import SHAPES

NOT_YET = 9


def cpp(folder):
    """The path of the program in C++, or None where it can't be built."""
    out = Path(folder, "cpp_cat")
    return out if subprocess.run([BENCH / "cpp/build.sh", out], check=False).returncode == 0 else None


def rows_of(ours, theirs, kind, file, workers):
    rows = {"ours": [ours, "cat", "builtin", kind, file, workers]}
    if theirs:
        rows |= {way: [theirs, way, kind, file, workers] for way in ("generated", "dynamic")}
    return rows


def measure(rows, more, runs, folder):
    """The best of each row, or None where the program has no such command yet."""
    found = dict.fromkeys(rows)
    for _ in range(runs):
        for name, command in rows.items():
            one = timed(command, more, f"{folder}/{name}")
            if name == "ours" and one.status == NOT_YET:
                return None
            if one.status != 0:
                sys.exit(f"{name}: status {one.status}")
            found[name] = best(found[name], one)
    if not all(filecmp.cmp(f"{folder}/ours", f"{folder}/{name}", shallow=False) for name in rows):
        sys.exit("the outputs differ")
    return found


def line(name, workers, pages, size, found):
    label = f"{name:20} {workers:>3}  {pages:5}"
    if found is None:
        return f"{label}  not built yet"
    ours = found["ours"]
    text = f"{label} {ours.seconds * 1e3:7.1f} {size / 1e6 / ours.seconds:6.0f} {ours.peak_mib:6.1f}"
    for way in "generated", "dynamic":
        if way in found:
            other = found[way]
            text += f"  {ours.seconds / other.seconds:6.2f} {ours.peak_mib / other.peak_mib:6.2f} {other.peak_mib:6.1f}"
    return text


def main():
    words = argparse.ArgumentParser(description=__doc__.splitlines()[0])
    words.add_argument("--seed", default="1")
    words.add_argument("--runs", type=int, default=15)
    words.add_argument("--mb", type=float, default=6.0)
    words.add_argument("--workers", default="1")
    words.add_argument("shapes", nargs="*", metavar="SHAPE", help=f"of: {', '.join(SHAPES)}")
    given = words.parse_args()
    unknown = [name for name in given.shapes if name not in SHAPES]
    if unknown:
        words.error(f"no shape {unknown[0]}; there are: {', '.join(SHAPES)}")
    ours = program()
    with tempfile.TemporaryDirectory() as folder:
        theirs = cpp(folder)
        print("                                      ours                 over generated        over dynamic")
        print("shape                wrk  pages      ms   MB/s    MiB    time    MiB (its)     time    MiB (its)")
        for name in given.shapes or SHAPES:
            # in a process of its own, so that this one stays small: a peak counts from the process that starts a program
            file = f"{folder}/frames"
            subprocess.run([sys.executable, BENCH / "shapes.py", name, given.seed, str(int(given.mb * 1e6)), file], check=True)
            for workers in given.workers.split(","):
                huge = HUGE if workers == "1" else HUGE_FOR_ALL
                for pages, more in ("small", {}), ("huge", huge):
                    rows = rows_of(ours, theirs, SHAPES[name].type, file, workers)
                    print(line(name, workers, pages, os.path.getsize(file), measure(rows, more, given.runs, folder)), flush=True)


if __name__ == "__main__":
    main()
