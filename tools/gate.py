#!/usr/bin/env python3
"""The gate: runs `rt ci`, and then the tests of the running service with the program that it proved. `sh tools/gate.sh` calls it.

The last line is 'N passed, M failed' with the sums of both. The status is 1 where either failed. Where `rt ci` failed the tests of the
service do not run.
"""
import os
import re
import signal
import subprocess
import sys

TOP = os.path.dirname(os.path.dirname(os.path.abspath(__file__)))
PROGRAM = "crates/pdcgw/out/pdcgw"
TOTALS = re.compile(r"(\d+) passed, (\d+) failed")


def ran(words):
    """How many passed and how many failed by the last line of a command. Its other lines are printed."""
    run, held = subprocess.Popen(words, cwd=TOP, stdout=subprocess.PIPE, text=True, errors="replace"), ""
    try:
        for line in run.stdout:
            print(held, end="", flush=True)
            held = line
        run.wait()
    finally:
        if run.poll() is None:
            run.terminate()
            run.wait()
    totals = TOTALS.match(held)
    if not totals:
        print(held, end="", flush=True)
        return 0, 1
    passed, failed = map(int, totals.groups())
    # A command that ends with a status and says that nothing failed has failed all the same.
    return passed, failed or int(run.returncode != 0)


def main():
    if len(sys.argv) > 1:
        sys.exit(__doc__)
    for it in (signal.SIGTERM, signal.SIGINT):
        signal.signal(it, lambda number, _: sys.exit(128 + number))
    passed, failed = ran(["rt", "ci"])
    if failed:
        print("the tests of the running service did not run, since `rt ci` failed")
    else:
        print(f"rt ci: {passed} passed; the running service:", flush=True)
        more, failed = ran([sys.executable, "tests/run.py", PROGRAM])
        passed += more
    print(f"{passed} passed, {failed} failed")
    sys.exit(1 if failed else 0)


if __name__ == "__main__":
    main()
