#!/usr/bin/env python3
"""Builds the whole program for a lab, without a proof, and runs it. `sh try.sh` calls it.

    sh try.sh               ./pdcgw demo: the live screen in a terminal, else ten seconds and the verdict
    sh try.sh WORD..        ./pdcgw WORD.., for example: sh try.sh run --setup setup.toml

The program keeps the run-time checks (index, overflow, `unwrap`, `unreachable!`): where one fails, it prints the function's name and traps.
`./pdcgw --version` prints that it is a lab build, and a checksum of its sources. A later run builds again only where that checksum differs.
The progress of a build goes to standard error.
"""
import hashlib
import os
import re
import shutil
import signal
import subprocess
import sys
import tempfile
import threading
import time

sys.dont_write_bytecode = True
import from_trial  # noqa: E402

TOP = os.path.dirname(os.path.dirname(os.path.abspath(__file__)))
VERSION = re.compile(r'(?m)^(const VERSION: &str = "[^"\n]*)(";)$')
STEPS = 3


def sources_sum():
    """A checksum of all that the program is made from: its sources, these tools and the toolchain's version."""
    files = [f"{TOP}/crates.txt", os.path.abspath(__file__), f"{TOP}/tools/from_trial.py"]
    for crate in from_trial.crates_below(TOP, "pdcgw"):
        for folder, folders, names in os.walk(f"{TOP}/crates/{crate}/src"):
            folders.sort()
            files += [f"{folder}/{name}" for name in sorted(names)]
    made = hashlib.sha256(subprocess.run(["rt", "version"], stdout=subprocess.PIPE, check=True).stdout)
    for file in files:
        made.update(f"{os.path.relpath(file, TOP)}\n".encode())
        with open(file, "rb") as f:
            made.update(hashlib.sha256(f.read()).digest())
    return made.hexdigest()[:12]


def contains(program, mark):
    try:
        with open(program, "rb") as f:
            return mark.encode() in f.read()
    except OSError:
        return False


class Progress:
    """Prints each step and the seconds so far: in a terminal one line that is renewed, else a line for each step."""

    def __init__(self):
        self.begun = time.monotonic()
        self.step = 0
        self.what = "copying the sources"
        self.is_terminal = sys.stderr.isatty()
        self.ended = threading.Event()
        self.renewer = threading.Thread(target=self.renew, daemon=True)
        if self.is_terminal:
            self.renewer.start()

    def seconds(self):
        return round(time.monotonic() - self.begun)

    def line(self):
        return f"try.sh: {self.seconds():3} s  step {self.step} of {STEPS}: {self.what}"

    def renew(self):
        while not self.ended.wait(0.5):
            sys.stderr.write(f"\r{self.line()}\033[K")
            sys.stderr.flush()

    def report(self, step):
        self.step, self.what = self.step + 1, step
        if not self.is_terminal:
            print(self.line(), file=sys.stderr, flush=True)

    def end(self, result):
        self.ended.set()
        if self.is_terminal:
            self.renewer.join()
            sys.stderr.write("\r\033[K")
        print(f"try.sh: {self.seconds():3} s  {result}", file=sys.stderr, flush=True)


def build(mark, program):
    print("try.sh: building ./pdcgw, with run-time checks and without a proof: some four minutes, once", file=sys.stderr, flush=True)
    progress = Progress()
    result = "stopped"
    try:
        with tempfile.TemporaryDirectory(prefix="pdcgw-lab-") as room:
            copy = from_trial.copied(TOP, room)
            # Only the copy's version is changed.
            main = f"{copy}/crates/pdcgw/src/main.rt"
            with open(main) as f:
                text, times = VERSION.subn(rf"\g<1> ({mark})\2", f.read())
            if times != 1:
                sys.exit("try.sh: crates/pdcgw/src/main.rt has no line `const VERSION`, or several")
            with open(main, "w") as f:
                f.write(text)
            from_trial.build(from_trial.the_kit(), f"{copy}/crates/pdcgw", f"{room}/pdcgw", room, from_trial.with_traps, "-O2", progress.report)
            # (a program that runs now keeps its own file)
            shutil.copy(f"{room}/pdcgw", f"{program}.new")
            os.replace(f"{program}.new", program)
        result = "built ./pdcgw"
    finally:
        progress.end(result)


def main():
    words = sys.argv[1:]
    signal.signal(signal.SIGTERM, lambda number, _: sys.exit(128 + number))
    program = f"{TOP}/pdcgw"
    mark = f"lab build, not proved; sources {sources_sum()}"
    if not contains(program, mark):
        try:
            build(mark, program)
        except KeyboardInterrupt:
            sys.exit(130)
    if not words:
        words = ["demo"] if sys.stdout.isatty() else ["demo", "--seconds", "10"]
        print(f"try.sh: ./pdcgw {' '.join(words)}", file=sys.stderr, flush=True)
    os.execv(program, [program, *words])


if __name__ == "__main__":
    main()
