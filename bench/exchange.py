#!/usr/bin/env python3
"""Times a take and a give of a slot that the caller knows beside bench/exchange.c: bench/exchange.py [ROUNDS]

On one thread and on four, each with a caller of its own. The rounds run in a copy of crates/, in the place of the one
take and give with which arena_list's tests fill a part, and are proved and built there. The C program exchanges and
stores as often, on words of its own that lie as far apart, and makes neither of the two loads of the own word with
which a take and a give of ours begin or end. Each prints the best of 99 runs, since a short run is more likely to have
all its processors to itself.

Each thread works for the first of 16 callers, so that the seats and the parts of those at work, which the tests keep
side by side, share no line of 64 bytes: only the words of the list keep that distance by themselves.
"""
import re
import shutil
import subprocess
import sys
import tempfile
from pathlib import Path

TOP = Path(__file__).resolve().parent.parent
CRATES = ["no_memory", "ghost_list", "arena_mem", "arena_list"]
ONE_TURN = """    let mut part = list.take_slot(seat, slot);
    if part.used < 1000 {
        part.used += 24;
    }
    list.give_slot(seat, slot, part);
"""
TURNS = """    for _ in 0..ROUNDS {
        let part = list.take_slot(seat, slot);
        list.give_slot(seat, slot, part);
    }
"""
ONE_EACH = """    if seats.len() < 2 {
        if seats.len() == 1 {
"""
FIRST_OF_16 = """    if seats.len() < 17 {
        if seats.len() > 0 {
"""
INVARIANT = """use Rattle.std.proofs.Common.{◌≡◌, Some}
use Rattle.arena_list.specs.contracts.tests.Counter.{the_row}
use Rattle.arena_list.specs.declared.tests.Counter.{Counter}
use Rattle.arena_list.specs.Rule.Founded.{meter}
use Rattle.arena_list.specs.Rule.Views.{mine}
use Rattle.arena_list.specs.Calls.Seats.{view, IsHome}
use Rattle.arena_list.proofs.tests.fill.Given as goal

abbrev pub invariant-loop : goal.invariant-loop
invariant-loop l = IsHome the_row.coded (meter (λ (c : Counter). c.owner) (λ (c : Counter). c.life) (λ (c : Counter). c.used)) l.list l.seat × (mine (view l.seat) ≡ Some l.slot)
"""
TIMES = """
use std::time::{Clock, Instant};

fn time<R: Threads + Clock + Sync>(rt: &R, list: &ArenaList<Counter>, seats: &mut [ListSeat]) -> Result<u64, Fail>
    requires { AreHome the_row.coded (meter (λ (c : Counter). c.owner) (λ (c : Counter). c.life) (λ (c : Counter). c.used)) list.now (length seats.old) seats.old }
    ensures { IfOk result (λ r. AreHome the_row.coded (meter (λ (c : Counter). c.owner) (λ (c : Counter). c.life) (λ (c : Counter). c.used)) list.now (length seats.old) seats.new) }
{
    let start = Instant::now(rt)?;
    work_all(rt, list, seats);
    Ok(u64::try_from(start.elapsed(rt)?.as_nanos()).unwrap_or(u64::MAX))
}

fn best_of<R: Threads + Clock + Sync>(rt: &R, alloc: Global, count: u32) -> Result<u64, Fail>
    requires { (0 < count) × (count ≤ 64) }
{
    let mut best = u64::MAX;
    for _ in 0..99 {
        let (spare, callers) = spares(alloc, count)?;
        let (list, mut seats) = made(alloc, Vec::new(alloc), spare, callers.as_slice())?;
        best = best.min(time(rt, &list, seats.as_mut_slice())?);
    }
    Ok(best)
}

#[test]
fn times(rt: HostRuntime) -> Result<(), Fail> {
    let one = best_of(&rt, rt.alloc(), 16)?;
    let four = best_of(&rt, rt.alloc(), 64)?;
    println!(rt; "1 threads: {one}")?;
    println!(rt; "4 threads: {four}")?;
    Ok(())
}
"""


def times(command, place=None):
    done = subprocess.run(command, cwd=place, capture_output=True, text=True)
    found = {int(threads): int(time) for threads, time in re.findall(r"(\d) threads: (\d+)", done.stdout)}
    if set(found) != {1, 4}:
        sys.exit(done.stdout + done.stderr)
    return found


def main(rounds="300000"):
    with tempfile.TemporaryDirectory() as folder:
        plain, repository = f"{folder}/exchange", Path(folder, "repository")
        subprocess.run(["cc", "-O2", "-pthread", "-o", plain, TOP / "bench/exchange.c"], check=True)
        for crate in CRATES:
            shutil.copytree(TOP / "crates" / crate, repository / "crates" / crate, ignore=shutil.ignore_patterns("out", "must-fail"))
        lines = (TOP / "crates.txt").read_text().splitlines(True)
        (repository / "crates.txt").write_text("".join(line for line in lines if line.split(":")[0] in CRATES))
        shutil.copy(TOP / "HANDLES", repository)
        crate = repository / "crates/arena_list"
        text = (crate / "src/tests.rt").read_text()
        for old, new in (ONE_TURN, TURNS.replace("ROUNDS", rounds)), (ONE_EACH, FIRST_OF_16):
            assert text.count(old) == 1, "the tests of arena_list work otherwise than this script knows"
            text = text.replace(old, new)
        (crate / "src/tests.rt").write_text(text[: text.index("#[test]")] + TIMES)
        (crate / "proofs/tests/fill").mkdir()
        (crate / "proofs/tests/fill/Invariants.antt").write_text(INVARIANT)
        ours, theirs = times(["rt", "test"], crate), times([plain, rounds])
    for threads in 1, 4:
        a, b = ours[threads] / int(rounds), theirs[threads] / int(rounds)
        print(f"{threads} threads: a take and give {a:.1f} ns, in plain C {b:.1f} ns, ratio {a / b:.2f}")


if __name__ == "__main__":
    main(*sys.argv[1:])
