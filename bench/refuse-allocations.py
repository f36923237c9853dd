#!/usr/bin/env python3
"""Refuses each allocation of two scripts in turn, and looks at what `pdcgw replay` answers.

    python3 bench/refuse-allocations.py PROGRAM [SCRIPT..]

PROGRAM is `pdcgw` as `rt run` left it in crates/pdcgw/out; a C compiler is needed. Without scripts it takes two worked rows. Allowed is

- the end with status 1, words that say so and `pdcgw: 1 NoMemory`, behind answers that are right as far as they go;
- `refused 1 NoMemory` or `ignored 1 NoMemory`: from there on the answers have to be those of the script without that line, counters of
  refusals and the audit aside;
- `done MADE KEPT` with fewer kept than with memory: these frames are missing from what is handed out and are counted as a gap; each
  frame that is there has the bytes of the run with memory.

Anything else is printed, and the status is 1.
"""
import os
import re
import subprocess
import sys
import tempfile

HERE = os.path.dirname(os.path.abspath(__file__))
ROWS = os.path.join(HERE, "..", "crates", "pdcgw_rows", "data")
NO_MEMORY = (["refused 1 NoMemory"], ["ignored 1 NoMemory"])
OUT_OF_MEMORY = "pdcgw: out of memory; give this machine more, or let the setup need less\npdcgw: 1 NoMemory\n"
# A line that is no line of a script is answered by this: it stands behind each line and parts the answers.
MARK = "refused 36 BadLine"


class Program:
    def __init__(self, path, room):
        self.path = os.path.abspath(path)
        self.library = os.path.join(room, "refuse.so")
        source = os.path.join(HERE, "refuse_allocation.c")
        subprocess.run(["cc", "-O2", "-shared", "-fPIC", "-o", self.library, source], check=True)
        self.known = {}

    def run(self, lines, refused=0):
        """The status, what was told, the answers to each line, and how many allocations were made."""
        told, tell = os.pipe()
        script = "".join(line + "\n?\n" for line in lines)
        env = {"LD_PRELOAD": self.library, "REFUSE": str(refused), "TELL": str(tell)}
        work = subprocess.run([self.path, "replay"], input=script, env=env, text=True, capture_output=True, timeout=60,
                              pass_fds=[tell])
        os.close(tell)
        with os.fdopen(told) as f:
            counts = f.read().split()
        groups = [[]]
        for line in work.stdout.splitlines():
            if line == MARK:
                groups.append([])
            else:
                groups[-1].append(line)
        return work.returncode, work.stderr, groups, int(counts[-1]) if counts else 0

    def answers(self, lines):
        """The answers with memory."""
        key = tuple(lines)
        if key not in self.known:
            self.known[key] = self.run(lines)[2]
        return self.known[key]


def frames_in(text):
    """The frames of these bytes in hexadecimal."""
    found = []
    while text and text != "-":
        size = 2 * int(text[4:8], 16)
        found.append(text[:size])
        text = text[size:]
    return found


def handed(group):
    """The frames that an answer of `drain` or `queue` shows, and how many it counts as lost."""
    frames, gaps = [], 0
    for line in group:
        word, *rest = line.split()
        if word == "drained":
            gaps += int(rest[2])
            frames += frames_in(rest[3])
        elif word in ("frame", "reply", "rest"):
            gaps += int(rest[0]) if word == "frame" else 0
            frames += frames_in(rest[-1])
        elif word == "pending":
            gaps += int(rest[0])
    return frames, gaps


def is_part(frames, whole):
    left = iter(whole)
    return all(frame in left for frame in frames)


def numbers(line):
    return {name: int(count) for name, count in re.findall(r"(\w+)[ :](\d+)", line)}


def is_allowed(group, want, lost, refused):
    """Whether this answer may stand for that of the run with memory, behind so many lost frames and refused events."""
    if group == want:
        return True
    if len(group) == len(want) == 1 and group[0].startswith("stats "):
        left, right = numbers(group[0]), numbers(want[0])
        if left.pop("1", 0) > refused or left["lost"] != right["lost"] + lost or (lost == 0 and left["handed"] != right["handed"]):
            return False
        return all(left[name] == right[name] for name in right if name not in ("lost", "handed"))
    if len(group) == len(want) == 1 and group[0].startswith("audit "):
        return refused > 0
    if lost and group and group[0].split()[0] in ("drained", "rest"):
        (frames, gaps), (whole, before) = handed(group), handed(want)
        return is_part(frames, whole) and len(whole) - len(frames) == lost and gaps <= before + lost
    return False


def kept(group):
    found = [re.fullmatch(r"done (\d+) (\d+)", line) for line in group]
    return [(int(it[1]), int(it[2])) for it in found if it]


def judge(program, lines, at):
    """What is wrong with the run in which allocation `at` is refused, and what came of it."""
    status, said, groups, _ = program.run(lines, at)
    if (status, said) not in ((0, ""), (1, OUT_OF_MEMORY)):
        return f"status {status}, {said!r}", ""
    if status == 0 and len(groups) != len(lines) + 1:
        return f"{len(groups) - 1} answers to {len(lines)} lines", ""
    taken, refused, lost, kinds = list(lines), 0, 0, set()
    want = program.answers(taken)
    place = 0
    for group in groups[:-1]:
        right = want[place]
        if is_allowed(group, right, lost, refused):
            place += 1
        elif group in NO_MEMORY:
            kinds.add(group[0])
            del taken[place]
            want = program.answers(taken)
            refused += 1
        elif len(kept(group)) == 1 and len(kept(right)) == 1 and kept(group)[0] < kept(right)[0] and kept(group)[0][0] == kept(right)[0][0]:
            kinds.add("a lost frame")
            lost += kept(right)[0][1] - kept(group)[0][1]
            place += 1
        else:
            return f"line {taken[place][:40]!r}: {group} where {right} would be right", ""
    if status:
        kinds.add("the end")
    return None, ", ".join(sorted(kinds)) or "nothing"


def main():
    if len(sys.argv) < 2:
        sys.exit(__doc__)
    scripts = sys.argv[2:] or [os.path.join(ROWS, name + ".script") for name in ("filler-after-wait", "stored-run")]
    faults = 0
    with tempfile.TemporaryDirectory() as room:
        program = Program(sys.argv[1], room)
        for script in scripts:
            with open(script) as f:
                lines = [line for line in f.read().splitlines() if line]
            status, said, _, count = program.run(lines)
            if status or not count:
                sys.exit(f"{script}: status {status} with memory, {count} allocations seen: {said}")
            came = {}
            for at in range(1, count + 1):
                fault, kind = judge(program, lines, at)
                if fault:
                    faults += 1
                    print(f"{os.path.basename(script)}: allocation {at} refused: {fault}")
                else:
                    came[kind] = came.get(kind, 0) + 1
            told = ", ".join(f"{kind} {times}" for kind, times in sorted(came.items()))
            print(f"{os.path.basename(script)}: {count} allocations refused in turn; what came of it: {told}")
    sys.exit(1 if faults else 0)


main()
