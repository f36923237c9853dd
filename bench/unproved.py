#!/usr/bin/env python3
"""Builds a program as LLVM builds a proved one, without a proof: to measure a change before it is proved.

    python3 bench/unproved.py OUT            the program pdcgw, in some three minutes
    python3 bench/unproved.py OUT --replay   a program that replays standard input alone, in one: for run-replay.sh, as PROGRAM

It takes the module that `rt try` compiles, takes out the checks and fills that only a trial has, writes the inlining hints of the sources
into it, which a trial leaves out, and compiles it at -O3. It took 0 to 5 % fewer instructions a frame than the proved program, with --replay
up to 1 % fewer still, as LLVM inlines more into a small program: compare like with like.
The program has no checks and no proof: it is for measurements alone. (`sh try.sh` builds one with checks.) tools/from_trial.py does the
work. It depends on the names that this version of the toolchain uses, and prints so where they differ.
"""
import os
import sys
import tempfile

TOP = os.path.dirname(os.path.dirname(os.path.abspath(__file__)))
sys.path.insert(0, f"{TOP}/tools")
sys.dont_write_bytecode = True
import from_trial  # noqa: E402

REPLAY = """//! Replays standard input.
#![tactic(auto)]

use pg_replay::replay;
use std::alloc::Global;
use std::io;
use std::io::BufWriter;
use std::process::ExitCode;

fn replay_input<R: Input + Print + Alloc<A = Global>>(rt: &R) -> bool {
    let alloc = rt.alloc();
    match BufWriter::new(alloc, io::writer(rt)) {
        Ok(mut out) => replay(alloc, rt.reader(), &mut out).is_ok(),
        Err(_) => false,
    }
}

fn main(rt: HostRuntime) -> ExitCode {
    ExitCode::from(if replay_input(&rt) { 0 } else { 1 })
}
"""


def with_replay(top, room):
    """A copy of the repository with one more crate, which replays."""
    copy = from_trial.copied(top, room)
    os.makedirs(f"{copy}/crates/replay_only/src")
    with open(f"{copy}/crates/replay_only/src/main.rt", "w") as f:
        f.write(REPLAY)
    with open(f"{copy}/crates.txt", "a") as f:
        f.write("replay_only: pg_replay\n")
    return f"{copy}/crates/replay_only"


def main():
    words = [it for it in sys.argv[1:] if it != "--replay"]
    if len(words) != 1 or words[0].startswith("-"):
        sys.exit(__doc__)
    out = os.path.abspath(words[0])
    with tempfile.TemporaryDirectory() as room:
        folder = with_replay(TOP, room) if "--replay" in sys.argv[1:] else f"{TOP}/crates/pdcgw"
        from_trial.build(from_trial.the_kit(), folder, out, room)


if __name__ == "__main__":
    main()
