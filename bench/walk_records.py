#!/usr/bin/env python3
"""Times read_frames and read_record beside bench/walk_records.c: bench/walk_records.py [SEED]

Both walk over all records of about 15 MB of small frames, made by the seed, and print the same sum; each prints its best
of five rounds. The program over pb_wire is made in a copy of crates/, and is proved and built there.
"""
import random
import shutil
import subprocess
import sys
import tempfile
from pathlib import Path

sys.dont_write_bytecode = True
from make_ticks import varint

TOP = Path(__file__).resolve().parent.parent
PROGRAM = '''//! Walks all records of all frames of a file.
#![tactic(auto)]

use pb_wire::{read_frames, read_record};
use std::time::Instant;
use std::{env, fs};

fn main(rt: HostRuntime) -> Result<(), anyhow::Error> {
    let mut words = env::args(&rt)?;
    words.next();
    let name = words.next().unwrap_or(String::new(rt.alloc()));
    let mut best = u64::MAX;
    let mut sum = 0u64;
    let mut count = 0;
    for _ in 0..5 {
        let bytes = fs::read(&rt, &name)?;
        let start = Instant::now(&rt)?;
        sum = 0;
        if let Ok(frames) = read_frames(rt.alloc(), bytes) {
            count = frames.count();
            for index in 0..count {
                let payload = frames.payload(index);
                if payload.len() >= 1 << 31 {
                    continue;
                }
                let mut at = 0u32;
                for _ in 0..payload.len() {
                    if (at as usize) >= payload.len() {
                        break;
                    }
                    let Ok(record) = read_record(payload, at, 0) else { break };
                    sum = sum.wrapping_add(u64::from(record.number)).wrapping_add(u64::from(record.end - record.payload));
                    at = record.end;
                }
            }
        }
        best = best.min(u64::try_from(start.elapsed(&rt)?.as_micros()).unwrap_or(u64::MAX));
    }
    println!(rt; "{count} frames, sum {sum}, {}.{:02} ms", best / 1000, best % 1000 / 10)?;
    Ok(())
}
'''


def frame(draw):
    payload = b"\x0a" + varint(n := draw.randrange(24)) + b"a" * n + b"\x10" + varint(draw.randrange(1000))
    for _ in range(draw.randrange(3)):
        payload += b"\x1a\x02\x10" + bytes([draw.randrange(128)])
    if draw.randrange(4) == 0:
        payload += b"\x2d" + bytes(4) + b"\x9b\x06\x08\x05\x9c\x06"
    return varint(len(payload)) + payload


def main(seed="1"):
    draw = random.Random(int(seed))
    with tempfile.TemporaryDirectory() as folder:
        file, plain, repository = f"{folder}/f", f"{folder}/plain", Path(folder, "repository")
        out = bytearray()
        while len(out) < 15_000_000:
            out += frame(draw)
        Path(file).write_bytes(out)
        subprocess.run(["cc", "-O2", "-o", plain, TOP / "bench/walk_records.c"], check=True)
        shutil.copytree(TOP / "crates", repository / "crates", ignore=shutil.ignore_patterns("out", "must-fail"))
        crate = repository / "crates/walk_bench"
        (crate / "src").mkdir(parents=True)
        (crate / "src/main.rt").write_text(PROGRAM)
        listed = (TOP / "crates.txt").read_text() + "walk_bench: pb_wire anyhow\n"
        (repository / "crates.txt").write_text(listed)
        for name, command, place in (("plain C", [plain, file], None), ("pb_wire", ["rt", "run", "--", file], crate)):
            done = subprocess.run(command, cwd=place, capture_output=True, text=True)
            lines = [line for line in done.stdout.splitlines() if " frames, sum " in line]
            print(f"{name:8} {lines[0] if lines else done.stdout + done.stderr}")


if __name__ == "__main__":
    main(*sys.argv[1:])
