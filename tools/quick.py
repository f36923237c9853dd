#!/usr/bin/env python3
"""Runs tests without a proof, as `rt try` builds them. `sh tools/quick.sh` calls it.

    sh tools/quick.sh            the worked rows and the tests of frames, in about two minutes
    sh tools/quick.sh --all      the worked rows and all tests, as many crates side by side as processors and memory allow, or RT_JOBS
    sh tools/quick.sh CRATE..    the tests of these crates; pdcgw_rows names the worked rows
    sh tools/quick.sh --service  the tests of the running service (tests/run.py) with ./pdcgw, which `sh try.sh` builds

The last line is 'N passed, M failed', and the status is 1 where one failed. A crate with failures beside others is run once more alone, as
some tests wait for real seconds; the second result counts. Some tests first take all memory, which is not possible here, as the sanitizer of
`rt try` refuses large sizes. They are skipped, and their names are printed; the gate runs them.
"""
import os
import re
import signal
import subprocess
import sys
import tempfile
import threading
import time

sys.dont_write_bytecode = True
import from_trial  # noqa: E402
import jobs  # noqa: E402

TOP = os.path.dirname(os.path.dirname(os.path.abspath(__file__)))
ROWS = "pdcgw_rows"
USUAL = [ROWS, "pg_frame_tests"]
# What a try of the largest crate takes.
GIGABYTES = 3
TEST = re.compile(r"(?m)^test (\S+) \.\.\. (ok|FAILED)\n((?:\n|    .*\n)*)")
ROW = re.compile(r"(?m)^([\w-]+): (as written|differs at line \d+|ends with \w+)$")
# A test that stopped at its `expect` on `all_memory`, behind the sanitizer's refusal of the first size that `all_memory` asks for.
ALL_MEMORY = re.compile(r"failed to allocate 0x400000000000 bytes(?s:.*)^ *a list of it$", re.M)
running, stopping = set(), threading.Event()


def has_tests(crate):
    for folder, _, names in os.walk(f"{TOP}/crates/{crate}/src"):
        for name in names:
            with open(f"{folder}/{name}", "rb") as f:
                if re.search(rb"#\s*\[[^]]*\btest\b", f.read()):
                    return True
    return False


def size(crate):
    """How many bytes of sources a try of the crate reads. The largest begin first."""
    return sum(os.path.getsize(f"{folder}/{name}") for it in from_trial.crates_below(TOP, crate)
               for folder, _, names in os.walk(f"{TOP}/crates/{it}/src") for name in names)


def tried(made, crate):
    """The status and the output of `rt try` in the crate's folder."""
    folder = f"{TOP}/crates/{crate}"
    words = ["--test", "--seconds", "600"]
    if crate == ROWS:
        words = [it for name in sorted(os.listdir(f"{folder}/data")) for it in ("--data", f"{name}=data/{name}")]
    with subprocess.Popen([sys.executable, f"{made}/bin/rt", "try", *words], cwd=folder, stdin=subprocess.DEVNULL, stdout=subprocess.PIPE,
                          stderr=subprocess.STDOUT, text=True, errors="replace") as run:
        running.add(run)
        output = run.communicate()[0]
        running.discard(run)
    return run.returncode, output


def judged_rows(output):
    """The names of the rows that passed, and the names and reasons of those that failed."""
    passed, failed = [], []
    seen = {it[1]: it[2] for it in ROW.finditer(output)}
    for name in sorted(it[:-7] for it in os.listdir(f"{TOP}/crates/{ROWS}/data") if it.endswith(".script")):
        if seen.get(name) == "as written":
            passed.append(name)
        else:
            failed.append((name, seen.get(name, "was not replayed")))
    return passed, failed


def judged_tests(crate, output):
    """The names of the tests that passed, of those that were skipped, and the names and reasons of those that failed."""
    passed, skipped, failed = [], [], []
    for it in TEST.finditer(output):
        if it[2] == "ok":
            passed.append(it[1])
        elif ALL_MEMORY.search(it[3]):
            skipped.append(it[1])
        else:
            failed.append((it[1], it[3].strip("\n")))
    counts = re.search(r"(?m)^test result: \w+\. (\d+) passed; (\d+) failed;", output)
    if not counts or (int(counts[1]), int(counts[2])) != (len(passed), len(skipped) + len(failed)):
        failed.append((crate, "\n".join(output.split("\n")[-20:])))
    return passed, skipped, failed


def judged(crate, status, output):
    if crate == ROWS:
        passed, failed = judged_rows(output)
        skipped = []
    else:
        passed, skipped, failed = judged_tests(crate, output)
    if status and not failed and not skipped:
        failed.append((crate, f"ended with status {status}\n{output[-2000:]}"))
    return passed, skipped, failed


def chosen_crates(words):
    crates = sorted(os.listdir(f"{TOP}/crates"))
    if words == ["--all"]:
        return [ROWS, *(it for it in crates if has_tests(it))]
    for it in words:
        if it not in crates or it != ROWS and not has_tests(it):
            sys.exit(__doc__ if it.startswith("-") else f"quick.sh: {it} is no crate with tests")
    return list(dict.fromkeys(words)) or USUAL


class Runs:
    """The runs of the chosen crates, some side by side."""

    def __init__(self, made, chosen):
        self.made, self.waiting, self.lock = made, list(chosen), threading.Lock()
        self.results = {it: ([], [], [(it, "did not run")]) for it in chosen}

    def one(self, crate):
        since = time.monotonic()
        result = judged(crate, *tried(self.made, crate))
        if stopping.is_set():
            return
        passed, skipped, failed = self.results[crate] = result
        notes = f", {len(failed)} failed" if failed else ""
        notes += f", {len(skipped)} skipped: {', '.join(skipped)}" if skipped else ""
        with self.lock:
            print(f"{crate}: {len(passed)} passed{notes} ({time.monotonic() - since:.0f} s)", flush=True)
            for name, why in failed:
                print(f"FAILED {crate} {name}: {why}", flush=True)

    def lane(self):
        while True:
            with self.lock:
                if not self.waiting:
                    return
                crate = self.waiting.pop(0)
            self.one(crate)

    def all(self, lanes):
        threads = [threading.Thread(target=self.lane, daemon=True) for _ in range(lanes)]
        try:
            for it in threads:
                it.start()
            for it in threads:
                it.join()
            for crate in [crate for crate, result in self.results.items() if result[2]] if lanes > 1 else []:
                print(f"{crate}: once more, alone", flush=True)
                self.one(crate)
        finally:
            # (where this was stopped by a signal: each `rt try` ends its own processes)
            stopping.set()
            self.waiting.clear()
            for it in list(running):
                it.terminate()
            for it in threads:
                it.join()


def run_service():
    """Runs the tests of the running service in the place of this program."""
    program = f"{TOP}/pdcgw"
    if not os.access(program, os.X_OK):
        sys.exit("quick.sh: there is no ./pdcgw; `sh try.sh --version` builds it")
    os.execv(sys.executable, [sys.executable, f"{TOP}/tests/run.py", program])


def main():
    if sys.argv[1:] == ["--service"]:
        run_service()
    chosen = sorted(chosen_crates(sys.argv[1:]), key=size, reverse=True)
    for it in (signal.SIGTERM, signal.SIGINT):
        signal.signal(it, lambda number, _: sys.exit(128 + number))
    begun = time.monotonic()
    lanes = min(jobs.jobs(GIGABYTES), len(chosen))
    print(f"{len(chosen)} crates, {lanes} at a time, without a proof", flush=True)
    with tempfile.TemporaryDirectory(prefix="pdcgw-quick-") as room:
        runs = Runs(from_trial.linked(from_trial.the_kit(), room, from_trial.NO_PROVER), chosen)
        runs.all(lanes)
    passed, skipped, failed = (sum(len(it[at]) for it in runs.results.values()) for at in range(3))
    if skipped:
        print(f"{skipped} skipped: they take all memory, which the sanitizer of `rt try` prevents; the gate runs them")
    print(f"{time.monotonic() - begun:.0f} s; nothing was proved")
    print(f"{passed} passed, {failed} failed")
    sys.exit(1 if failed else 0)


if __name__ == "__main__":
    main()
