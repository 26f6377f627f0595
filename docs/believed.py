#!/usr/bin/env python3
"""Lists what a reader of the top call's contract has to believe: docs/believed.py [FILE.rt]

The definitions that the contracts of FILE.rt cite (crates/arena_run/src/program.rt, if none is named) and those on which
these stand, file by file, with the lines of each that aren't blank, comments or imports; then the same of the traits
whose clauses the call takes for granted of what it is handed.
"""
import re
import sys
from pathlib import Path

TOP = Path(__file__).resolve().parent.parent
TRAITS = ["crates/arena_mem/src/memory.rt", "crates/arena_mem/src/outside.rt"]


def cited_by(path):
    """The files of definitions in this repository that a file's imports name."""
    for line in path.read_text().splitlines():
        found = re.match(r"\s*(?:pub )?(?:ghost )?use Rattle\.(\w+)\.specs\.([\w.]+)", line)
        if not found or not (TOP / "crates" / found[1]).is_dir():
            continue
        parts = found[2].rstrip(".").split(".")
        for count in range(len(parts), 0, -1):
            file = TOP / "crates" / found[1] / "specs" / ("/".join(parts[:count]) + ".antt")
            if file.is_file():
                yield file
                break


def own_lines(path):
    """How many lines say something."""
    marks = ("//", "--", "use ", "pub use ", "ghost use ")
    return sum(1 for line in path.read_text().splitlines() if line.strip() and not line.strip().startswith(marks))


def main(start="crates/arena_run/src/program.rt"):
    found, left = [], [TOP / start]
    while left:
        for file in cited_by(left.pop()):
            if file not in found:
                found.append(file)
                left.append(file)
    total = 0
    for title, files in ("definitions", sorted(found)), ("traits", [TOP / name for name in TRAITS]):
        count = sum(map(own_lines, files))
        total += count
        print(f"{title}: {len(files)} files, {count} lines")
        for file in files:
            print(f"    {own_lines(file):4}  {file.relative_to(TOP)}")
    print(f"in all {total} lines, of which each says something; beside them std's words, as the toolchain has them")


if __name__ == "__main__":
    main(*sys.argv[1:])
