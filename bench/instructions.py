#!/usr/bin/env python3
"""Counts the instructions that the gateway's core takes for each input frame of a replay, by callgrind, without the reading and printing of text.

    python3 bench/instructions.py PROGRAM SOURCES [OPTION..]      OPTION: of replay_scripts.py

A replay enters the core by the functions of pg_serve. What these take when text calls them is the core's, with all that they call: so it does
not matter what reads the lines and prints the answers. The figure is the difference of two runs, of 100 and of 200 instants, divided by the
input frames between them, so that the setup does not count. With a file KEEP the profile of 200 instants is kept there.
"""
import os
import re
import shutil
import subprocess
import sys
import tempfile

HERE = os.path.dirname(os.path.abspath(__file__))
TOP = os.path.dirname(HERE)
sys.path.insert(0, f"{TOP}/tools")
sys.dont_write_bytecode = True
import from_trial  # noqa: E402

# What takes a source's bytes, one of which text calls.
ENTRY = re.compile(r"pg_serve::(world::World::take|world_core::Core::take(_source)?)\b")
# valgrind shows a processor on which memset fills some hundred bytes by one instruction for each.
ENVIRONMENT = {**os.environ, "GLIBC_TUNABLES": "glibc.cpu.x86_rep_stosb_threshold=1000000"}


def profile(program, script, file):
    """Replays the script under callgrind, whose profile goes to the file."""
    run = subprocess.run(["valgrind", "--tool=callgrind", f"--callgrind-out-file={file}", program, "replay"], input=script, env=ENVIRONMENT,
                         capture_output=True)
    if run.returncode:
        sys.exit(f"the replay ended with status {run.returncode}: {run.stderr.decode(errors='replace')[-500:]}")
    if re.search(rb"refused|ignored|closed", run.stdout):
        sys.exit("a line of the script is refused")


def calls_in(file):
    """The calls of a profile: who calls whom, and the instructions of the callee with all that it calls."""
    names, caller, callee = {}, None, None
    with open(file) as f:
        for line in f:
            found = re.match(r"(c?fn)=\((\d+)\)(?: (.*))?", line)
            if found:
                if found[3]:
                    names[found[2]] = found[3]
                if found[1] == "fn":
                    caller = names[found[2]]
                else:
                    callee = names[found[2]]
            elif line.startswith("calls="):
                yield caller, callee, int(next(f).split()[1])


def of_core(file, text, core):
    """The instructions of the core: of its functions where text calls them, with what they call."""
    crate = lambda name: name.partition("::")[0]
    calls = [it for it in calls_in(file) if crate(it[0]) in text and crate(it[1]) in core]
    return sum(cost for _, callee, cost in calls) if any(ENTRY.match(callee) for _, callee, _ in calls) else 0


def crates():
    """The crates of text and those of the core."""
    core = set(from_trial.crates_below(TOP, "pg_serve"))
    # (`replay_only` is the program of bench/unproved.py --replay, and LLVM inlines much into `main`)
    return {*os.listdir(f"{TOP}/crates"), "replay_only", "main"} - core, core


def per_frame(program, options, sources, keep=None):
    """The core's instructions for each input frame."""
    counts = []
    with tempfile.TemporaryDirectory() as room:
        for instants in 100, 200:
            words = [sys.executable, f"{HERE}/replay_scripts.py", str(instants), *options]
            profile(program, subprocess.run(words, stdout=subprocess.PIPE, check=True).stdout, f"{room}/profile")
            counts.append(of_core(f"{room}/profile", *crates()))
            if not counts[-1]:
                sys.exit("the profile has no call of the core: the program has no names of functions, or LLVM inlined the core into them")
        if keep:
            shutil.copy(f"{room}/profile", keep)
    return (counts[1] - counts[0]) / (100 * sources)


def main():
    if len(sys.argv) < 3 or not sys.argv[2].isdigit():
        sys.exit(__doc__)
    program, sources, options = os.path.abspath(sys.argv[1]), sys.argv[2], sys.argv[3:]
    print(round(per_frame(program, ["--sources", sources, *options], int(sources), os.environ.get("KEEP"))))


if __name__ == "__main__":
    main()
