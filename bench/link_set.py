#!/usr/bin/env python3
"""Times the linking of large descriptor sets beside the C++ library's pool: bench/link_set.py [RUNS [PROGRAM]]

Whole-process times, best of several runs that take turns: the program reads the set and an empty frames file, and
bench/cpp/link.cc reads the set and builds its files in a pool. All fields name messages. A set may have 2^22 bytes, so not
all 4,096 messages can have all 512 fields. PROGRAM is the program's path, where it isn't to be built first.
"""
import os
import subprocess
import sys
import tempfile
from pathlib import Path

sys.dont_write_bytecode = True
from measure import BENCH, best, program, timed

SHAPES = [(4096, 49), (2000, 100), (380, 512)]


def main(runs="10", path=None):
    arena = path or program()
    with tempfile.TemporaryDirectory() as folder:
        pool = f"{folder}/link"
        subprocess.run([BENCH / "cpp/build.sh", pool, "link.cc"], check=True)
        empty = Path(folder, "empty.frames")
        empty.write_bytes(b"")
        for messages, fields in SHAPES:
            made = f"{folder}/{messages}.set"
            subprocess.run([sys.executable, BENCH / "make_set.py", str(messages), str(fields), made], check=True, stdout=subprocess.DEVNULL)
            rows = {"arena": [arena, "cat", made, "b.M0", empty, "1"], "C++ pool": [pool, made, "b.M0"]}
            found = dict.fromkeys(rows)
            for _ in range(int(runs)):
                for name, command in rows.items():
                    one = timed(command, {})
                    assert one.status == 0, f"{name}: status {one.status}"
                    found[name] = best(found[name], one)
            ours, theirs = found["arena"], found["C++ pool"]
            size = os.path.getsize(made) / 1e6
            print(
                f"{messages:5} messages of {fields:3} fields, {size:4.1f} MB: {ours.seconds * 1e3:6.1f} ms, {ours.peak_mib:5.1f} MiB;"
                f" over the pool's time {ours.seconds / theirs.seconds:4.2f}, peak {ours.peak_mib / theirs.peak_mib:4.2f}"
            )


if __name__ == "__main__":
    main(*sys.argv[1:])
