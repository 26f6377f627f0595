#!/usr/bin/env python3
"""Times merging and copying messages of another arena, beside the C++ library: bench/merges.py [RUNS]

Merges a million small nodes (`pb.Node` with a name, a count and two marks) into one, and copies a tree of 100,001 nodes. The
program over `msg_merge` is made here and proved and built in a copy of the crates below it; bench/cpp/merges.cc is the same
by `MergeFrom` and `CopyFrom` of the class that protoc makes, and of the library's dynamic messages. All have to print the
same sum of what the result holds. Each program tells its own best time of three runs, from the making of the arena that is
filled to its last byte; the script takes turns, and prints the best of all.
"""
import subprocess
import sys
import tempfile
from pathlib import Path

sys.dont_write_bytecode = True
from measure import BENCH, proved, repository

BELOW = (
    "no_memory ghost_list arena_mem arena_block cleanup_list serial_arena pb_schema pb_wire msg_layout dyn_message pb_parse "
    "pb_write msg_merge"
).split()
USES = "merges: arena_mem arena_block serial_arena pb_schema msg_layout dyn_message pb_parse msg_merge\n"
EACH_RUNS = 3

# The calls on fields in each function, as their goals are named, and the fields' numbers.
FIELDS = {
    "children": [("count", 3)],
    "child": [("count-many", 3), ("element_sub-node", 3)],
    "sum": [("count-marks", 4), ("get_scalar", 2), ("element_scalar-sum", 4)],
}
IMPORTS = """use Rattle.std.proofs.Common.{{refl}}
use Rattle.dyn_message.proofs.NodeFields.{{node_has}}
use Rattle.merges.proofs.{name}.Goals as goal
"""
ANSWER = """
pub {call}-requires-clause-field : goal.{call}-requires-clause-field
{call}-requires-clause-field g c = node_has _ _ c.args.types.now c.args.msg.type_no {number} c.requires.schema c.requires.node (record {{ field = _; found = refl; card = tt; type = tt }})
"""
PROOFS = {
    "merged/Invariants": """use Rattle.std.proofs.Common.{◌-◌}
use Rattle.dyn_message.specs.Fields.{IsMessageIn}
use Rattle.merges.proofs.merged.Given as goal

-- the node into which the children are merged stands
abbrev pub invariant-children : goal.invariant-children
invariant-children g l = IsMessageIn l.fn.types (g.M.Memory.places l.mem) (g.M.Memory.buffers l.mem) l.to

abbrev pub decreases-children : goal.decreases-children
decreases-children g l = l.many - l.i
""",
    "merge_one/Answers": """use Rattle.merges.proofs.merge_one.Goals as goal

pub returns-in-Ok : goal.returns-in-Ok
returns-in-Ok g c =
    let t = c.requires.to in
    let f = c.requires.from in
    let n = c.in-Ok.ensures.merged t.0 t.1 f.0 f.1 t.2 f.2 in
    (_, n.now, n.stands)
""",
    "copied/Answers": """use Rattle.merges.proofs.copied.Goals as goal

pub returns-in-Ok-clause-message : goal.returns-in-Ok-clause-message
returns-in-Ok-clause-message g c =
    let f = c.requires.from in
    let n = c.in-Ok.ensures.copied f.0 f.1 f.2 in
    (f.0, n.now, n.stands)
""",
}
PROGRAM = """//! Merges a million small nodes into one of another arena, or copies a tree of nodes into one, and tells a sum of what the
//! result holds and the best time of so many runs.
#![tactic(auto)]

ghost use Rattle.std.specs.Prelude.{◌≡◌, IfOk, IfSome};
ghost use Rattle.pb_schema.specs.Builtin.{builtin as builtin_schema};
ghost use Rattle.dyn_message.specs.Fields.{IsMessageIn};

use arena_block::Policy;
use arena_mem::Memory;
use dyn_message::{MsgRef, count, create, element_scalar, element_sub, get_scalar};
use msg_layout::layouts;
use msg_layout::tables::Layouts;
use msg_merge::{copy, merge_across};
use pb_parse::parse_into;
use pb_schema::builtin;
use serial_arena::SerialArena;
use std::alloc::Global;
use std::process::ExitCode;
use std::time::{Clock, Instant};

const RUNS: u32 = @RUNS;

const IS_COPY: bool = @COPY;

const NODE: u32 = 1;

// What went wrong: want of memory, or of a clock.
#[derive(Drop)]
struct Ended;

// So many small nodes as children, each with a name, a count and two marks, 18 bytes each.
fn put_small_nodes(bytes: &mut Vec<u8>, many: u32) -> Result<(), Ended> {
    for i in 0..many {
        let low = (i % 128) as u8;
        let middle = (i / 128 % 128) as u8;
        let high = (i / 16384 % 128) as u8;
        let front = bytes.extend_from_slice(b"\\x1a\\x10\\x0a\\x06a name\\x10");
        let back = bytes.extend_from_slice(&[low + 128, middle + 128, high, 0x22, 2, low, middle]);
        if front.is_err() || back.is_err() {
            return Err(Ended);
        }
    }
    Ok(())
}

// A million small nodes; or a hundred children with 999 small nodes each.
fn payload(alloc: Global) -> Result<Vec<u8>, Ended> {
    let mut bytes = Vec::new(alloc);
    if !IS_COPY {
        put_small_nodes(&mut bytes, 1000000)?;
        return Ok(bytes);
    }
    for _ in 0..100 {
        if bytes.extend_from_slice(b"\\x1a\\xbe\\x8c\\x01").is_err() {
            return Err(Ended);
        }
        put_small_nodes(&mut bytes, 999)?;
    }
    Ok(bytes)
}

fn new_node<M: Memory>(mem: &mut M, types: &Layouts) -> Result<MsgRef, Ended>
    requires schema { types.now ≡ builtin_schema }
    ensures message { IfOk result (λ msg. IsMessageIn types.now (M.places mem.new) (M.buffers mem.new) msg) }
    ensures node { IfOk result (λ msg. msg.type_no ≡ 1) }
{
    match create(mem, types, NODE) {
        Ok(msg) => Ok(msg),
        Err(_) => Err(Ended),
    }
}

fn parsed<M: Memory>(alloc: Global, mem: &mut M, types: &Layouts, bytes: &[u8]) -> Result<MsgRef, Ended>
    requires schema { types.now ≡ builtin_schema }
    ensures message { IfOk result (λ msg. IsMessageIn types.now (M.places mem.new) (M.buffers mem.new) msg) }
    ensures node { IfOk result (λ msg. msg.type_no ≡ 1) }
{
    if bytes.len() >= 1 << 25 {
        return Err(Ended);
    }
    let Ok(msg) = create(mem, types, NODE) else {
        return Err(Ended);
    };
    match parse_into(alloc, mem, types, msg, bytes) {
        Ok(()) => Ok(msg),
        Err(_) => Err(Ended),
    }
}

// How many children a node has.
fn children<M: Memory>(mem: &M, types: &Layouts, msg: MsgRef) -> u32
    requires message { IsMessageIn types.now (M.places mem.now) (M.buffers mem.now) msg }
    requires schema { types.now ≡ builtin_schema }
    requires node { msg.type_no ≡ 1 }
{
    count(mem, types, msg, 3)
}

// The child at this index; none where a node has fewer.
fn child<M: Memory>(mem: &M, types: &Layouts, msg: MsgRef, index: u32) -> Option<MsgRef>
    requires message { IsMessageIn types.now (M.places mem.now) (M.buffers mem.now) msg }
    requires schema { types.now ≡ builtin_schema }
    requires node { msg.type_no ≡ 1 }
    ensures message { IfSome result (IsMessageIn types.now (M.places mem.now) (M.buffers mem.now)) }
    ensures node { IfSome result (λ node. node.type_no ≡ 1) }
{
    let many = count(mem, types, msg, 3);
    if index >= many {
        return None;
    }
    let node = element_sub(mem, types, msg, 3, index);
    if node.type_no == NODE { Some(node) } else { None }
}

// The count and the marks of a node, added up.
fn sum<M: Memory>(mem: &M, types: &Layouts, msg: MsgRef) -> u64
    requires message { IsMessageIn types.now (M.places mem.now) (M.buffers mem.now) msg }
    requires schema { types.now ≡ builtin_schema }
    requires node { msg.type_no ≡ 1 }
{
    let marks = count(mem, types, msg, 4);
    let mut sum = get_scalar(mem, types, msg, 2).unwrap_or(0);
    for index in 0..marks {
        sum = sum.wrapping_add(element_scalar(mem, types, msg, 4, index));
    }
    sum
}

// Those of a node's children, where it has any.
fn children_sum<M: Memory>(mem: &M, types: &Layouts, msg: MsgRef) -> u64
    requires message { IsMessageIn types.now (M.places mem.now) (M.buffers mem.now) msg }
    requires schema { types.now ≡ builtin_schema }
    requires node { msg.type_no ≡ 1 }
{
    let many = children(mem, types, msg);
    let mut all = 0u64;
    for index in 0..many {
        if let Some(node) = child(mem, types, msg, index) {
            all = all.wrapping_add(sum(mem, types, node));
        }
    }
    all
}

// Those of a node, of its children and of theirs.
fn tree_sum<M: Memory>(mem: &M, types: &Layouts, msg: MsgRef) -> u64
    requires message { IsMessageIn types.now (M.places mem.now) (M.buffers mem.now) msg }
    requires schema { types.now ≡ builtin_schema }
    requires node { msg.type_no ≡ 1 }
{
    let many = children(mem, types, msg);
    let mut all = sum(mem, types, msg).wrapping_add(children_sum(mem, types, msg));
    for index in 0..many {
        if let Some(node) = child(mem, types, msg, index) {
            all = all.wrapping_add(children_sum(mem, types, node));
        }
    }
    all
}

// Merges all children of a node of another memory into a new one.
fn merged<M: Memory, N: Memory>(mem: &mut M, types: &Layouts, other: &N, from: MsgRef) -> Result<MsgRef, Ended>
    requires schema { types.now ≡ builtin_schema }
    requires from { IsMessageIn types.now (N.places other.now) (N.buffers other.now) from }
    requires node { from.type_no ≡ 1 }
    ensures message { IfOk result (λ msg. IsMessageIn types.now (M.places mem.new) (M.buffers mem.new) msg) }
    ensures node { IfOk result (λ msg. msg.type_no ≡ 1) }
{
    let to = new_node(mem, types)?;
    let many = children(other, types, from);
    let mut i = 0;
    'children: while i < many {
        if let Some(node) = child(other, types, from, i) {
            merge_one(mem, types, to, other, node)?;
        }
        i += 1;
    }
    Ok(to)
}

fn merge_one<M: Memory, N: Memory>(mem: &mut M, types: &Layouts, to: MsgRef, other: &N, from: MsgRef) -> Result<(), Ended>
    requires to { IsMessageIn types.now (M.places mem.old) (M.buffers mem.old) to }
    requires from { IsMessageIn types.now (N.places other.now) (N.buffers other.now) from }
    requires same { from.type_no ≡ to.type_no }
    ensures { IfOk result (λ _. IsMessageIn types.now (M.places mem.new) (M.buffers mem.new) to) }
{
    match merge_across(mem, types, to, other, from) {
        Ok(()) => Ok(()),
        Err(_) => Err(Ended),
    }
}

fn copied<M: Memory, N: Memory>(mem: &mut M, types: &Layouts, other: &N, from: MsgRef) -> Result<MsgRef, Ended>
    requires from { IsMessageIn types.now (N.places other.now) (N.buffers other.now) from }
    requires node { from.type_no ≡ 1 }
    ensures message { IfOk result (λ msg. IsMessageIn types.now (M.places mem.new) (M.buffers mem.new) msg) }
    ensures node { IfOk result (λ msg. msg.type_no ≡ 1) }
{
    match copy(mem, types, other, from) {
        Ok(msg) => Ok(msg),
        Err(_) => Err(Ended),
    }
}

fn made<M: Memory, N: Memory>(mem: &mut M, types: &Layouts, other: &N, from: MsgRef) -> Result<MsgRef, Ended>
    requires schema { types.now ≡ builtin_schema }
    requires from { IsMessageIn types.now (N.places other.now) (N.buffers other.now) from }
    requires node { from.type_no ≡ 1 }
    ensures message { IfOk result (λ msg. IsMessageIn types.now (M.places mem.new) (M.buffers mem.new) msg) }
    ensures node { IfOk result (λ msg. msg.type_no ≡ 1) }
{
    if IS_COPY {
        copied(mem, types, other, from)
    } else {
        merged(mem, types, other, from)
    }
}

// One run: the sum, and the nanoseconds that the making took.
fn run<R: Clock>(rt: &R, alloc: Global, types: &Layouts, bytes: &[u8]) -> Result<(u64, u64), Ended>
    requires { types.now ≡ builtin_schema }
{
    let mut other = SerialArena::new(alloc, Policy::profile(), 0, 1, 0);
    let from = parsed(alloc, &mut other, types, bytes)?;
    let Ok(start) = Instant::now(rt) else {
        return Err(Ended);
    };
    let mut arena = SerialArena::new(alloc, Policy::profile(), 0, 1, 1);
    let msg = made(&mut arena, types, &other, from)?;
    let Ok(time) = start.elapsed(rt) else {
        return Err(Ended);
    };
    Ok((tree_sum(&arena, types, msg), u64::try_from(time.as_nanos()).unwrap_or(u64::MAX)))
}

fn best<R: Clock>(rt: &R, alloc: Global) -> Result<(u64, u64), Ended> {
    let Ok(schema) = builtin(alloc) else {
        return Err(Ended);
    };
    let Ok(types) = layouts(alloc, schema) else {
        return Err(Ended);
    };
    let bytes = payload(alloc)?;
    let mut best = (0, u64::MAX);
    for _ in 0..RUNS {
        let (sum, time) = run(rt, alloc, &types, &bytes)?;
        best = (sum, time.min(best.1));
    }
    Ok(best)
}

fn main(rt: HostRuntime) -> ExitCode {
    let Ok((sum, time)) = best(&rt, rt.alloc()) else {
        return ExitCode::from(1);
    };
    match println!(rt; "{sum} {time}") {
        Ok(()) => ExitCode::from(0),
        Err(_) => ExitCode::from(1),
    }
}
"""


def with_proofs(crate):
    texts = {f"{name}/Answers": IMPORTS.format(name=name) + "".join(ANSWER.format(call=call, number=number) for call, number in calls) for name, calls in FIELDS.items()}
    for name, text in (texts | PROOFS).items():
        path = crate / "proofs" / f"{name}.antt"
        path.parent.mkdir(parents=True, exist_ok=True)
        path.write_text(text)
    return crate


def told(command):
    """The sum that a program prints, and its best time in nanoseconds."""
    words = subprocess.run([str(word) for word in command], capture_output=True, text=True, check=True).stdout.split()
    return int(words[0]), int(words[1])


def main(runs="5"):
    with tempfile.TemporaryDirectory() as name:
        folder = Path(name)
        theirs = folder / "cpp_merges"
        if subprocess.run([BENCH / "cpp/build.sh", theirs, "merges.cc"], check=False).returncode != 0:
            sys.exit("nothing was measured: the program in C++ wasn't built")
        crate = with_proofs(repository(folder / "repository", BELOW, USES))
        print("way        ms   over generated   over dynamic")
        for way in "merge", "copy":
            source = PROGRAM.replace("@RUNS", str(EACH_RUNS)).replace("@COPY", str(way == "copy").lower())
            rows = {"ours": [proved(crate, source, folder / way)]}
            rows |= {kind: [theirs, kind, way, EACH_RUNS] for kind in ("generated", "dynamic")}
            found = {kind: [] for kind in rows}
            for _ in range(int(runs)):
                for kind, command in rows.items():
                    found[kind].append(told(command))
            assert len({sum for all in found.values() for sum, _ in all}) == 1, "the sums differ"
            best = {kind: min(time for _, time in all) for kind, all in found.items()}
            ours = best["ours"]
            print(f"{way:6} {ours / 1e6:6.1f} {ours / best['generated']:16.2f} {ours / best['dynamic']:14.2f}", flush=True)


if __name__ == "__main__":
    main(*sys.argv[1:])
