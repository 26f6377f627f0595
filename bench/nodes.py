#!/usr/bin/env python3
"""Times messages that are made, changed and read one by one, beside the C++ library: bench/nodes.py [RUNS]

A million of `pb.Node`: each is created, its count set twice and its name once, four marks are appended, and all is read
back. Once a thousand arenas have a thousand messages each, which stay in the processor's caches, and once one arena has all.
The program over `dyn_message` is made here and proved and built in a copy of the crates below it; bench/cpp/nodes.cc is
the same over the classes that protoc makes, and over dynamic messages through `Reflection`, with the fields' descriptors
found beforehand. All have to print the same sum of what was read. Processor times, best of several runs that take turns.
"""
import subprocess
import sys
import tempfile
from pathlib import Path

sys.dont_write_bytecode = True
from measure import BENCH, best, proved, repository, timed

BELOW = "no_memory ghost_list arena_mem arena_block cleanup_list serial_arena pb_schema msg_layout dyn_message".split()
USES = "nodes: arena_mem arena_block serial_arena pb_schema msg_layout dyn_message\n"
SHAPES = [(1000, 1000), (1, 1000000)]

# What each function needs for a call on a field: the call, as its goal is named, the field's number, and why it may be called.
FIELDS = {
    "put_count": ("set_scalar", 2, "c.ranges.bits.fits"),
    "count_of": ("get_scalar", 2, "tt"),
    "put_name": ("set_bytes", 1, "subst (λ s. is_utf8 s ≡ true) (sym c.as_bytes.ensures.value) (is_utf8-from_IsUtf8 c.args.name.now c.utf8.name)"),
    "name_length": ("get_bytes", 1, "tt"),
    "append_mark": ("append_scalar", 4, "omega (arith, c.ranges.bits.fits)"),
    "marks_sum": ("element_scalar-sum", 4, "tt"),
}
COUNTS = ["append_mark", "marks_sum"]
ANSWER = """
pub {call}-requires-clause-field : goal.{call}-requires-clause-field
{call}-requires-clause-field g c = node_has _ _ c.args.types.now c.args.msg.type_no {number} c.requires.schema c.requires.node (record {{ field = _; found = refl; card = tt; type = {type} }})
"""
IMPORTS = """use Rattle.std.proofs.Common.{{refl, sym, subst, ◌≡◌, true, arith}}
use Rattle.std.specs.Str.{{is_utf8}}
use Rattle.std.proofs.lemmas.Str.{{is_utf8-from_IsUtf8}}
use Rattle.dyn_message.proofs.NodeFields.{{node_has}}
use Rattle.nodes.proofs.{name}.Goals as goal
"""
SET = """
pub returns : goal.returns
returns g c =
    let m = c.requires.message in
    let s = c.set_scalar.ensures.set m.0 m.1 m.2 in
    (_, s.now, s.stands)
"""
PROGRAM = """//! Makes messages of `pb.Node`, changes each and reads it back, in so many arenas one after the other.
#![tactic(auto)]

ghost use Rattle.std.specs.Prelude.{◌≡◌, ◌<◌, ◌^◌, IfOk, length};
ghost use Rattle.arena_block.specs.Policy.{IsValid};
ghost use Rattle.pb_schema.specs.Builtin.{builtin as builtin_schema};
ghost use Rattle.dyn_message.specs.Fields.{IsMessageIn};

use arena_block::Policy;
use arena_mem::{MemFault, Memory};
use dyn_message::{
    MsgRef, append_scalar, count, create, element_scalar, get_bytes, get_scalar, set_bytes, set_scalar,
};
use msg_layout::layouts;
use msg_layout::tables::Layouts;
use pb_schema::builtin;
use serial_arena::SerialArena;
use std::alloc::Global;
use std::process::ExitCode;

const LIVES: u32 = @LIVES;

const EACH: u32 = @EACH;

fn new_node<M: Memory>(mem: &mut M, types: &Layouts) -> Result<MsgRef, MemFault>
    requires schema { types.now ≡ builtin_schema }
    ensures message { IfOk result (λ msg. IsMessageIn types.now (M.places mem.new) (M.buffers mem.new) msg) }
    ensures node { IfOk result (λ msg. msg.type_no ≡ 1) }
{
    create(mem, types, 1)
}

fn put_count<M: Memory>(mem: &mut M, types: &Layouts, msg: MsgRef, bits: u64)
    requires message { IsMessageIn types.now (M.places mem.old) (M.buffers mem.old) msg }
    requires schema { types.now ≡ builtin_schema }
    requires node { msg.type_no ≡ 1 }
    ensures { IsMessageIn types.now (M.places mem.new) (M.buffers mem.new) msg }
{
    set_scalar(mem, types, msg, 2, bits);
}

fn count_of<M: Memory>(mem: &M, types: &Layouts, msg: MsgRef) -> u64
    requires message { IsMessageIn types.now (M.places mem.now) (M.buffers mem.now) msg }
    requires schema { types.now ≡ builtin_schema }
    requires node { msg.type_no ≡ 1 }
{
    get_scalar(mem, types, msg, 2).unwrap_or(0)
}

fn put_name<M: Memory>(mem: &mut M, types: &Layouts, msg: MsgRef, name: &str) -> Result<(), MemFault>
    requires message { IsMessageIn types.now (M.places mem.old) (M.buffers mem.old) msg }
    requires schema { types.now ≡ builtin_schema }
    requires node { msg.type_no ≡ 1 }
    requires short { length name.now < 2 ^ 31 }
    ensures { IfOk result (λ _. IsMessageIn types.now (M.places mem.new) (M.buffers mem.new) msg) }
{
    set_bytes(mem, types, msg, 1, name.as_bytes())
}

fn name_length<M: Memory>(mem: &M, types: &Layouts, msg: MsgRef) -> u64
    requires message { IsMessageIn types.now (M.places mem.now) (M.buffers mem.now) msg }
    requires schema { types.now ≡ builtin_schema }
    requires node { msg.type_no ≡ 1 }
{
    match get_bytes(mem, types, msg, 1) {
        Some(bytes) => bytes.len() as u64,
        None => 0,
    }
}

fn append_mark<M: Memory>(mem: &mut M, types: &Layouts, msg: MsgRef, bits: u32) -> Result<(), MemFault>
    requires message { IsMessageIn types.now (M.places mem.old) (M.buffers mem.old) msg }
    requires schema { types.now ≡ builtin_schema }
    requires node { msg.type_no ≡ 1 }
    ensures { IfOk result (λ _. IsMessageIn types.now (M.places mem.new) (M.buffers mem.new) msg) }
{
    let marks = count(mem, types, msg, 4);
    if marks >= 1 << 26 {
        return Ok(());
    }
    append_scalar(mem, types, msg, 4, u64::from(bits))
}

fn marks_sum<M: Memory>(mem: &M, types: &Layouts, msg: MsgRef) -> u64
    requires message { IsMessageIn types.now (M.places mem.now) (M.buffers mem.now) msg }
    requires schema { types.now ≡ builtin_schema }
    requires node { msg.type_no ≡ 1 }
{
    let marks = count(mem, types, msg, 4);
    let mut sum = 0u64;
    for index in 0..marks {
        sum = sum.wrapping_add(element_scalar(mem, types, msg, 4, index));
    }
    sum
}

fn one_node<M: Memory>(mem: &mut M, types: &Layouts, i: u32) -> Result<u64, MemFault>
    requires { types.now ≡ builtin_schema }
{
    let msg = new_node(mem, types)?;
    put_count(mem, types, msg, u64::from(i));
    put_count(mem, types, msg, u64::from(i ^ 1));
    put_name(mem, types, msg, "a name")?;
    append_mark(mem, types, msg, i)?;
    append_mark(mem, types, msg, i ^ 1)?;
    append_mark(mem, types, msg, i ^ 2)?;
    append_mark(mem, types, msg, i ^ 3)?;
    let own = count_of(mem, types, msg).wrapping_add(name_length(mem, types, msg));
    Ok(own.wrapping_add(marks_sum(mem, types, msg)))
}

fn nodes<M: Memory>(mem: &mut M, types: &Layouts) -> Result<u64, MemFault>
    requires { types.now ≡ builtin_schema }
{
    let mut sum = 0u64;
    for i in 0..EACH {
        sum = sum.wrapping_add(one_node(mem, types, i)?);
    }
    Ok(sum)
}

fn lives(alloc: Global, types: &Layouts) -> Result<u64, MemFault>
    requires { types.now ≡ builtin_schema }
{
    let mut sum = 0u64;
    for _ in 0..LIVES {
        let mut arena = SerialArena::new(alloc, Policy::profile(), 0, 1, 0);
        sum = sum.wrapping_add(nodes(&mut arena, types)?);
    }
    Ok(sum)
}

fn main(rt: HostRuntime) -> ExitCode {
    let Ok(schema) = builtin(rt.alloc()) else {
        return ExitCode::from(1);
    };
    let Ok(types) = layouts(rt.alloc(), schema) else {
        return ExitCode::from(1);
    };
    let Ok(sum) = lives(rt.alloc(), &types) else {
        return ExitCode::from(1);
    };
    match println!(rt; "{sum}") {
        Ok(()) => ExitCode::from(0),
        Err(_) => ExitCode::from(1),
    }
}
"""


def answers(name):
    call, number, reason = FIELDS[name]
    text = IMPORTS.format(name=name)
    if name in COUNTS:
        text += ANSWER.format(call="count-marks", number=number, type="tt")
    text += ANSWER.format(call=call, number=number, type=reason)
    return text + (SET if name == "put_count" else "")


def with_proofs(crate):
    for name in FIELDS:
        (crate / "proofs" / name).mkdir(parents=True)
        (crate / "proofs" / name / "Answers.antt").write_text(answers(name))
    return crate


def built(crate, lives, each):
    """The program for so many arenas of so many messages, proved and built."""
    return proved(crate, PROGRAM.replace("@LIVES", str(lives)).replace("@EACH", str(each)), crate / f"nodes_{lives}")


def summed(command):
    return subprocess.run(command, capture_output=True, text=True, check=True).stdout


def main(runs="15"):
    with tempfile.TemporaryDirectory() as name:
        folder = Path(name)
        theirs = folder / "cpp_nodes"
        if subprocess.run([BENCH / "cpp/build.sh", theirs, "nodes.cc"], check=False).returncode != 0:
            sys.exit("nothing was measured: the program in C++ wasn't built")
        crate = with_proofs(repository(folder / "repository", BELOW, USES))
        print("arenas  messages     ms    MiB   over generated   over reflection   (time, peak)")
        for lives, each in SHAPES:
            rows = {"ours": [built(crate, lives, each)]}
            rows |= {way: [theirs, way, str(lives), str(each)] for way in ("generated", "reflection")}
            assert len({summed(command) for command in rows.values()}) == 1, "the sums differ"
            found = dict.fromkeys(rows)
            for _ in range(int(runs)):
                for way, command in rows.items():
                    found[way] = best(found[way], timed(command, {}))
            ours, text = found["ours"], ""
            for way in "generated", "reflection":
                text += f"  {ours.processor / found[way].processor:8.2f} {ours.peak_mib / found[way].peak_mib:6.2f}"
            print(f"{lives:6} {each:9} {ours.processor * 1e3:6.1f} {ours.peak_mib:6.1f}{text}", flush=True)


if __name__ == "__main__":
    main(*sys.argv[1:])
