#!/usr/bin/env python3
"""Times a million placements of 32 bytes beside bench/place.c: bench/placements.py [RUNS]

What the program takes over a million ticks, less what bench/walk.c takes over the same file, is what it spends on
placing the messages and on its registers. Beside it stands the same loop in C over blocks of the same sizes from
calloc, less an empty run. Processor times, best of several runs that take turns.
"""
import subprocess
import sys
import tempfile

sys.dont_write_bytecode = True
from measure import BENCH, HUGE, compiled, program, timed


def main(runs="40"):
    arena = program()
    with tempfile.TemporaryDirectory() as folder:
        frames = f"{folder}/ticks.frames"
        subprocess.run([sys.executable, BENCH / "make_ticks.py", "1", "1000000", frames], check=True)
        place = compiled("place.c", folder)
        rows = {
            "program": [arena, "cat", "builtin", "pb.Tick", frames, "1"],
            "walk": [compiled("walk.c", folder), frames],
            "place": [place, "1000000"],
            "nothing": [place, "0"],
        }
        best = dict.fromkeys(rows, 1e9)
        for _ in range(int(runs)):
            for name, command in rows.items():
                one = timed(command, HUGE)
                assert one.status == 0, f"{command}: status {one.status}"
                best[name] = min(best[name], one.processor)
    ours, plain = best["program"] - best["walk"], best["place"] - best["nothing"]
    print(f"a million placements: arena {ours * 1e3:.1f} ms, plain C {plain * 1e3:.1f} ms, ratio {ours / plain:.2f}")


if __name__ == "__main__":
    main(*sys.argv[1:])
