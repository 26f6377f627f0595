#!/usr/bin/env python3
"""Times the program beside bench/walk.c on a million ticks: bench/ticks.py [SEED [RUNS]]

Whole-process times, best of several runs that take turns, with MB/s of input, the ratio and the peak memory of each.
The program runs as ./arena runs it; "small pages" is the same without huge pages. Output goes to a file.
"""
import os
import subprocess
import sys
import tempfile
from pathlib import Path

sys.dont_write_bytecode = True
from measure import BENCH, HUGE, best, compiled, program, timed


def main(seed="1", runs="30"):
    arena = program()
    with tempfile.TemporaryDirectory() as folder:
        frames = f"{folder}/ticks.frames"
        subprocess.run([sys.executable, BENCH / "make_ticks.py", seed, "1000000", frames], check=True)
        words = [arena, "cat", "builtin", "pb.Tick", frames, "1"]
        rows = {
            "plain C": ([compiled("walk.c", folder), frames], HUGE),
            "arena": (words, HUGE),
            "arena, small pages": (words, {}),
        }
        found = dict.fromkeys(rows)
        for _ in range(int(runs)):
            for name, (command, more) in rows.items():
                one = timed(command, more, f"{folder}/{name}")
                assert one.status == 0, f"{name}: status {one.status}"
                found[name] = best(found[name], one)
        outputs = {Path(folder, name).read_bytes() for name in rows}
        assert len(outputs) == 1, "outputs differ"
        size = os.path.getsize(frames) / 1e6
    print(f"a million ticks, {size:.1f} MB")
    for name, one in found.items():
        ratio = one.seconds / found["plain C"].seconds
        print(f"{name:20} {one.seconds * 1e3:7.1f} ms  {size / one.seconds:6.0f} MB/s  ratio {ratio:4.2f}  peak {one.peak_mib:5.1f} MiB")


if __name__ == "__main__":
    main(*sys.argv[1:])
