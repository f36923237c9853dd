#!/usr/bin/env python3
"""Runs the gate by tools/gate.sh, as .ci/run does, and measures its time.

    python3 tools/gate_times.py [FILE]      FILE gets the gate's output, else standard output does

The last line on standard output has the totals: processors, wall-clock minutes, and processor minutes of proofs, tests and edits and in all.
The table of each crate goes to out/gate_times.md at the top. Its processor seconds are those of the checks and compilers that the gate
started. They are read from the kernel twice a second, so processes that live shorter are missed, and the sum of the kinds is less than the
total, which is the kernel's own. The status is the gate's.
"""
import os
import subprocess
import sys
import threading
import time

TICK = os.sysconf("SC_CLK_TCK")
KINDS = ("proof", "tests", "edits")
TABLE = "out/gate_times.md"
seen = {}  # (process, its start) -> (crate, kind, processor seconds, first moment, last moment)


def kind_of(words, folder):
    """The crate and the kind of work of a process. None: it is not one of the gate."""
    if not words or "rattle" not in os.path.basename(words[0]):
        return None
    if "rt-edit-" not in folder and not folder.startswith(os.getcwd() + "/"):
        return None
    name = words[words.index("--crate-name") + 1] if "--crate-name" in words[:-1] else "?"
    if "rt-edit-" in folder:
        return name, "edits"
    return name, "tests" if "--test" in words else "proof"


def look(now):
    for process in os.listdir("/proc"):
        if not process.isdigit():
            continue
        try:
            with open(f"/proc/{process}/cmdline", "rb") as f:
                words = [word.decode(errors="replace") for word in f.read().split(b"\0")]
            with open(f"/proc/{process}/stat") as f:
                fields = f.read().rsplit(")", 1)[1].split()
            found = kind_of(words, os.readlink(f"/proc/{process}/cwd"))
        except (OSError, IndexError):
            continue
        if found:
            key = process, fields[19]
            first = seen[key][3] if key in seen else now
            seen[key] = (*found, (int(fields[11]) + int(fields[12])) / TICK, first, now)


def watch(ended, begun):
    while not ended.wait(0.5):
        look(time.monotonic() - begun)


def seconds(kind, crate=None):
    return sum(it[2] for it in seen.values() if it[1] == kind and crate in (None, it[0]))


def table():
    rows = ["| Crate | " + " | ".join(KINDS) + " | in all | from .. to |", "|---|" + "---|" * (len(KINDS) + 2)]
    for crate in sorted({crate for crate, *_ in seen.values()}):
        sums = [seconds(kind, crate) for kind in KINDS]
        times = [time for it in seen.values() if it[0] == crate for time in it[3:]]
        rows.append(f"| {crate} | " + " | ".join(f"{it:.0f}" for it in sums) + f" | {sum(sums):.0f} | {min(times):.0f} .. {max(times):.0f} |")
    return rows


def totals(wall_clock):
    spent = os.times()
    kinds = ", ".join(f"{kind} {seconds(kind) / 60:.1f}" for kind in KINDS)
    return (f"{len(os.sched_getaffinity(0))} processors: wall clock {wall_clock / 60:.1f} minutes, "
            f"processor minutes {kinds}, in all {(spent.children_user + spent.children_system) / 60:.1f}")


def main():
    if len(sys.argv) > 2 or sys.argv[1:] and sys.argv[1].startswith("-"):
        sys.exit(__doc__)
    os.chdir(os.path.dirname(os.path.dirname(os.path.abspath(__file__))))
    begun, ended = time.monotonic(), threading.Event()
    watcher = threading.Thread(target=watch, args=(ended, begun))
    watcher.start()
    try:
        with open(sys.argv[1], "w") if len(sys.argv) > 1 else os.fdopen(os.dup(1), "w") as out:
            gate = subprocess.run(["sh", "tools/gate.sh"], stdout=out, stderr=subprocess.STDOUT)
    finally:
        ended.set()
        watcher.join()
    line = totals(time.monotonic() - begun)
    os.makedirs(os.path.dirname(TABLE), exist_ok=True)
    with open(TABLE, "w") as f:
        print(line, "", "Processor seconds, and from when to when in wall-clock seconds:", "", *table(), sep="\n", file=f)
    print(line)
    return gate.returncode


if __name__ == "__main__":
    sys.exit(main())
