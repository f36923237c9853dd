#!/usr/bin/env python3
"""Runs the tests of the running service: each starts the program and drives it through its sockets, lines, log and page.

    python3 tests/run.py PROGRAM              all tests
    python3 tests/run.py PROGRAM NAME..       the tests of these names, such as test_allow_at_the_start

PROGRAM is `pdcgw`, as `sh try.sh` or `rt ci` leaves it. Tests run side by side, two for each processor, since most of them wait: each in a
process of its own, with its own ports and folder, and a time limit of 60 seconds, or twice the seconds that it says to wait. A test that failed is
run once more alone, as some wait for real seconds; the second result counts. The last line is 'N passed, M failed', and the status is 1 where one
failed.
"""
import glob
import importlib
import os
import shutil
import signal
import subprocess
import sys
import tempfile
import threading
import time
import traceback

sys.dont_write_bytecode = True
HERE = os.path.dirname(os.path.abspath(__file__))
sys.path.insert(0, HERE)
import peers  # noqa: E402

LIMIT = 60
# The words by which a process of a test is started.
ONE = "--one"
# What a test prints that this machine does not permit, before the reason. It counts as passed.
PASSED_BY = "passed by: "
# The last lines of each log that are printed with a failure.
SHOWN = 12


def all_tests():
    """The tests by name. Those that wait longest come first."""
    found = {}
    for file in sorted(glob.glob(f"{HERE}/test_*.py")):
        module = importlib.import_module(os.path.basename(file)[:-3])
        for name in vars(module):
            if name.startswith("test_"):
                if name in found:
                    sys.exit(f"run.py: {name} is there twice")
                found[name] = getattr(module, name)
    return dict(sorted(found.items(), key=lambda it: -getattr(it[1], "seconds", 0)))


def run_one(program, name, folder, guard):
    """Runs a test in this process. It ends with all its processes where the runner ends."""
    def watch():
        os.read(guard, 1)
        os.killpg(0, signal.SIGKILL)

    threading.Thread(target=watch, daemon=True).start()
    test, bench, status = all_tests()[name], peers.Bench(program, folder), 0
    try:
        test(bench)
    except peers.PassedBy as reason:
        print(f"{PASSED_BY}{reason}")
    except Exception as error:  # noqa: B902 (whatever it is, the test failed)
        status = 1
        place = traceback.extract_tb(error.__traceback__)
        own = [it for it in place if os.path.basename(it.filename).startswith("test_")]
        print(f"{type(error).__name__} at {own[-1].filename.rsplit('/', 1)[-1]}:{own[-1].lineno}: {error}")
    finally:
        bench.end()
    if status:
        for gateway in bench.gateways:
            print(f"log of {os.path.basename(gateway.file)}, status {gateway.process.returncode}:")
            print("".join(f"    {it}\n" for it in gateway.log.lines[-SHOWN:]), end="")
    sys.stdout.flush()
    os._exit(status)


class Run:
    """A process of a test."""

    def __init__(self, program, name, guard):
        self.name, self.begun = name, time.monotonic()
        self.limit = max(LIMIT, 2 * getattr(all_tests()[name], "seconds", 0))
        self.folder = tempfile.mkdtemp(prefix="pdcgw-test-")
        self.output = tempfile.TemporaryFile("w+", errors="replace")
        self.process = subprocess.Popen([sys.executable, os.path.abspath(__file__), program, ONE, name, self.folder, str(guard)],
                                        stdin=subprocess.DEVNULL, stdout=self.output, stderr=subprocess.STDOUT, pass_fds=(guard,),
                                        start_new_session=True)

    def is_over(self):
        if self.process.poll() is None and time.monotonic() < self.begun + self.limit:
            return False
        self.kill()
        return True

    def kill(self):
        """Ends the test, and whatever it started."""
        try:
            os.killpg(self.process.pid, signal.SIGKILL)
        except ProcessLookupError:
            pass
        self.process.wait()
        shutil.rmtree(self.folder, ignore_errors=True)

    def result(self):
        """Whether it passed, the seconds that it took, and what it printed."""
        took = time.monotonic() - self.begun
        self.output.seek(0)
        printed = self.output.read()
        if took >= self.limit:
            printed = f"it took longer than {self.limit} s\n{printed}"
        return self.process.returncode == 0, took, printed


def run_all(program, names, lanes, guard):
    """The names of those that failed."""
    waiting, running, failed = list(names), [], []
    try:
        while waiting or running:
            while waiting and len(running) < lanes:
                running.append(Run(program, waiting.pop(0), guard))
            for run in [it for it in running if it.is_over()]:
                running.remove(run)
                passed, took, printed = run.result()
                word = printed.splitlines()[0] if passed and printed.startswith(PASSED_BY) else "ok" if passed else "FAILED"
                print(f"test {run.name} ... {word} ({took:.1f} s)", flush=True)
                if not passed:
                    failed.append(run.name)
                    print("".join(f"    {it}\n" for it in printed.splitlines()), end="", flush=True)
            time.sleep(0.02)
    finally:
        for run in running:
            run.kill()
    return failed


def main():
    words = sys.argv[1:]
    if not words or words[0].startswith("-"):
        sys.exit(__doc__)
    program = os.path.abspath(words[0])
    if words[1:2] == [ONE]:
        run_one(program, words[2], words[3], int(words[4]))
    tests = all_tests()
    names = [it for it in tests if it in words[1:]] if words[1:] else list(tests)
    strange = [it for it in words[1:] if it not in tests]
    if strange or not os.access(program, os.X_OK):
        sys.exit(f"run.py: {'no test is named ' + strange[0] if strange else program + ' is no program'}")
    for it in (signal.SIGTERM, signal.SIGINT, signal.SIGHUP):
        signal.signal(it, lambda number, _: sys.exit(128 + number))
    # Each test's process ends where this pipe does.
    guard, _held = os.pipe()
    begun, lanes = time.monotonic(), 2 * len(os.sched_getaffinity(0))
    failed = run_all(program, names, lanes, guard)
    if failed:
        print(f"{len(failed)} failed: once more, alone", flush=True)
        failed = run_all(program, failed, 1, guard)
    print(f"{time.monotonic() - begun:.0f} s, {lanes} at a time")
    print(f"{len(names) - len(failed)} passed, {len(failed)} failed")
    sys.exit(1 if failed else 0)


if __name__ == "__main__":
    main()
