#!/usr/bin/env python3
"""Times entering a shared arena with a cache, placing 32 bytes and leaving, beside bench/lease.c: bench/lease.py [ROUNDS]

On one, two and four threads, each with a caller of its own, a million rounds each. The rounds run in a copy of crates/,
by the workers of ts_arena's tests, and are proved and built there. The C program makes the same exchanges and stores,
and places as many bytes, with no claim about any of it. Where g++ and the headers of the C++ library are there, one
google::protobuf::Arena allocates as often on as many threads. Each prints the best of nine runs.
"""
import re
import shutil
import subprocess
import sys
import tempfile
from pathlib import Path

TOP = Path(__file__).resolve().parent.parent
CRATES = ["no_memory", "ghost_list", "arena_mem", "arena_block", "cleanup_list", "serial_arena", "life_ids", "arena_list", "ts_arena"]
ROUNDS = "const ROUNDS: u32 = 1000;"
TIMES = """
use std::time::{Clock, Instant};

fn time<R: Threads + Clock + Sync>(rt: &R, shared: &Shared, seats: &mut [Option<(Pass, ThreadCache)>]) -> Result<u64, Fail>
    requires { AreReady shared.now (length seats.old) seats.old }
{
    let start = Instant::now(rt)?;
    work_all(rt, shared, seats);
    Ok(u64::try_from(start.elapsed(rt)?.as_nanos()).unwrap_or(u64::MAX))
}

// Each caller has an even number: such a caller keeps its cache.
fn best_of<R: Threads + Clock + Sync>(rt: &R, alloc: Global, callers: &[u32]) -> Result<u64, Fail>
    requires { (0 < length callers.now) × (length callers.now < 2 ^ 32) }
{
    let mut best = u64::MAX;
    for _ in 0..9 {
        let (shared, passes) = share_among(new_arena(alloc, 5), callers)?;
        let mut seats = seated(alloc, &shared, passes)?;
        best = best.min(time(rt, &shared, seats.as_mut_slice())?);
    }
    Ok(best)
}

#[test]
fn times(rt: HostRuntime) -> Result<(), Fail> {
    let one = best_of(&rt, rt.alloc(), &[0])?;
    let two = best_of(&rt, rt.alloc(), &[0, 2])?;
    let four = best_of(&rt, rt.alloc(), &[0, 2, 4, 6])?;
    println!(rt; "1 threads: {one}")?;
    println!(rt; "2 threads: {two}")?;
    println!(rt; "4 threads: {four}")?;
    Ok(())
}
"""
HEAD = """//! Times of rounds.
ghost use Rattle.std.specs.Prelude.{◌≡◌, ◌≤◌, ◌<◌, ◌^◌, [], length};
ghost use Rattle.ts_arena.specs.Ready.{AreReady};

use crate::callers::share_among;
use crate::workers::{seated, work_all};
use crate::{Arena, Pass, Shared};
use arena_block::Policy;
use life_ids::ThreadCache;
use std::alloc::Global;
use std::test::Fail;
use std::thread::Threads;

"""


def times(command, place=None):
    done = subprocess.run(command, cwd=place, capture_output=True, text=True)
    found = {int(threads): int(time) for threads, time in re.findall(r"(\d) threads: (\d+)", done.stdout)}
    if set(found) != {1, 2, 4}:
        sys.exit(done.stdout + done.stderr)
    return found


def ours(folder, rounds):
    repository = Path(folder, "repository")
    for crate in CRATES:
        shutil.copytree(TOP / "crates" / crate, repository / "crates" / crate, ignore=shutil.ignore_patterns("out", "must-fail"))
    lines = (TOP / "crates.txt").read_text().splitlines(True)
    (repository / "crates.txt").write_text("".join(line for line in lines if line.split(":")[0] in CRATES))
    shutil.copy(TOP / "HANDLES", repository)
    crate = repository / "crates/ts_arena"
    text = (crate / "src/workers.rt").read_text()
    assert text.count(ROUNDS) == 1, "the workers of ts_arena's tests work otherwise than this script knows"
    (crate / "src/workers.rt").write_text(text.replace(ROUNDS, ROUNDS.replace("1000", rounds)))
    tests = (crate / "src/tests.rt").read_text()
    arena = tests[tests.index("/// An arena with blocks of the profile.") : tests.index("/// Places 20 bytes in a region")]
    (crate / "src/tests.rt").write_text(HEAD + arena + TIMES)
    return times(["rt", "test"], crate)


def main(rounds="1000000"):
    with tempfile.TemporaryDirectory() as folder:
        plain, library = f"{folder}/lease", f"{folder}/lease_cc"
        subprocess.run(["cc", "-O2", "-pthread", "-o", plain, TOP / "bench/lease.c"], check=True)
        others = {"plain C": times([plain, rounds])}
        if shutil.which("g++"):
            built = subprocess.run(["g++", "-O2", "-o", library, TOP / "bench/lease.cc", "-lprotobuf", "-pthread"], capture_output=True)
            if built.returncode == 0:
                others["the C++ library"] = times([library, rounds])
        found = ours(folder, rounds)
    for threads in 1, 2, 4:
        each = found[threads] / int(rounds)
        beside = ", ".join(f"in {name} {time[threads] / int(rounds):.1f} ns, ratio {found[threads] / time[threads]:.2f}" for name, time in others.items())
        print(f"{threads} threads: a round {each:.1f} ns; {beside}")


if __name__ == "__main__":
    main(*sys.argv[1:])
