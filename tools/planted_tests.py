#!/usr/bin/env python3
"""Tries the planted bugs that a test has to refuse: those in crates/*/planted whose line `refused:` begins with `test`.

    python3 tools/planted_tests.py           all of them
    python3 tools/planted_tests.py EDIT..    these: names of edits, with or without their folders

Nothing is proved. A copy of the repository is built with the bugs as `sh try.sh` does it, in some minutes, and the tests that the edits name run with this
program; a test of a crate runs as by `sh tools/quick.sh`. Several bugs are in one program, each in another set of programs, and all these
tests run with each. An edit is `refused` where one of its tests fails in each program with it, and passes with each other bug of one of these
programs in another program. The others are tried alone, since a bug may hide another one: `NOT REFUSED` is one whose tests pass then. The
status is 1 where an edit is not refused.
"""
import glob
import itertools
import math
import os
import re
import signal
import sys
import tempfile

sys.dont_write_bytecode = True
import from_trial  # noqa: E402
import planted_table  # noqa: E402
import quick  # noqa: E402

TOP = planted_table.ROOT
sys.path.insert(0, f"{TOP}/tests")
import run  # noqa: E402

# The level of LLVM: the program is for tests alone.
LEVEL = "-O0"
# Tests of the running service side by side. Most of them wait.
LANES = 6
NOT_TRIED = "NOT TRIED, as it can't be built"


def crate_of(test):
    """The crate of a test; None where it is one of the running service."""
    if test.startswith("test_"):
        return None
    found = [path for path in glob.glob(f"{TOP}/crates/*/src/**/*.rt", recursive=True)
             if re.search(rf"(?m)^\s*fn {test}\(", open(path, encoding="utf-8").read())]
    if len(found) != 1:
        sys.exit(f"planted_tests.py: the test {test} is in {len(found)} files of crates")
    return os.path.relpath(found[0], f"{TOP}/crates").split("/")[0]


def chosen(words):
    """The edits of these names."""
    found = [it for it in planted_table.edits() if it.tests()]
    if not words:
        return found
    names = {os.path.basename(it).removesuffix(".edit") for it in words}
    strange = names - {it.name for it in found}
    if strange:
        sys.exit(f"planted_tests.py: no edit that a test refuses has the name {strange.pop()}")
    return [it for it in found if it.name in names]


def check_names(edits):
    """Each test that an edit names is there."""
    for test in {test for it in edits for test in it.tests()}:
        if test.startswith("test_") and test not in run.all_tests():
            sys.exit(f"planted_tests.py: there is no test {test}")


def sets(count):
    """As many sets of programs, all of one size and no two the same, of as few programs as that takes."""
    programs = next(it for it in itertools.count(1) if math.comb(it, max(1, it // 2)) >= count)
    return list(itertools.combinations(range(programs), max(1, programs // 2)))[:count]


def service_fails(copy, room, names):
    """Which of these tests of the running service fail with a program of this copy; None where it can't be built."""
    program = f"{room}/pdcgw"
    try:
        from_trial.build(from_trial.the_kit(), f"{copy}/crates/pdcgw", program, room, from_trial.with_traps, LEVEL)
    except SystemExit as error:
        # (a signal gives a number)
        if not isinstance(error.code, str):
            raise
        print("\n".join(error.code.splitlines()[-12:]), flush=True)
        return None
    guard, _held = os.pipe()
    failed = run.run_all(program, [it for it in run.all_tests() if it in names], LANES, guard)
    # A busy machine fails a test too: the second result counts.
    return set(run.run_all(program, failed, 2, guard))


def crate_fails(copy, room, names, crate):
    """Which of these tests of a crate fail in this copy; None where it can't be built."""
    quick.TOP = copy
    _, output = quick.tried(from_trial.linked(from_trial.the_kit(), room, from_trial.NO_PROVER), crate)
    passed, skipped, failed = quick.judged_tests(crate, output)
    passed, failed = {it.split("::")[-1] for it in passed}, {it[0].split("::")[-1] for it in failed}
    if not passed:
        print("\n".join(output.splitlines()[-12:]), flush=True)
        return None
    # (a test that stopped the whole run has no result)
    return {it for it in names if it not in passed}


def fails(edits, names, crate):
    """Which of these tests fail with all these bugs at once; None where that is not known."""
    texts = {}
    with tempfile.TemporaryDirectory(prefix="pdcgw-planted-") as room:
        copy = from_trial.copied(TOP, room)
        for edit in edits:
            misfit = edit.plant(copy, texts)
            if misfit:
                print(f"{edit.name}: {misfit}", flush=True)
                return None
        for path, text in texts.items():
            with open(path, "w", encoding="utf-8") as f:
                f.write(text)
        return crate_fails(copy, room, names, crate) if crate else service_fails(copy, room, names)


def passes(test, edit, results):
    """Whether a test passes in some program with this bug."""
    return any(edit in edits and test not in failed for edits, failed in results)


def is_blamed(test, edit, results):
    """Whether a test fails in some program, and no other bug in it can be why."""
    return any(edit in edits and test in failed and all(it is edit or passes(test, it, results) for it in edits) for edits, failed in results)


def verdict(edit, results):
    """What the results of programs, each a list of edits and a set of tests that fail, say of an edit: None where they say nothing."""
    if any(is_blamed(test, edit, results) and not passes(test, edit, results) for test in edit.tests()):
        return "refused"
    return "NOT REFUSED" if all(passes(test, edit, results) for test in edit.tests()) else None


def try_together(edits, crate):
    """The verdict of each edit."""
    names, results, verdicts = {test for it in edits for test in it.tests()}, [], {}
    numbers = sets(len(edits))
    for number in range(max(map(max, numbers)) + 1):
        inside = [edit for edit, programs in zip(edits, numbers) if number in programs]
        print(f"program {number + 1}: {', '.join(it.name for it in inside)}", flush=True)
        failed = fails(inside, names, crate)
        if failed is not None:
            results.append((inside, failed))
            print(f"program {number + 1}: {len(failed)} of {len(names)} tests fail: {', '.join(sorted(failed))}", flush=True)
    for edit in edits:
        verdicts[edit] = verdict(edit, results)
        if verdicts[edit] != "refused" and len(edits) > 1:
            print(f"alone: {edit.name}", flush=True)
            failed = fails([edit], set(edit.tests()), crate)
            verdicts[edit] = verdict(edit, [([edit], failed)] if failed is not None else [])
    return verdicts


def main():
    if any(it.startswith("-") for it in sys.argv[1:]):
        sys.exit(__doc__)
    for it in (signal.SIGTERM, signal.SIGINT, signal.SIGHUP):
        signal.signal(it, lambda number, _: sys.exit(128 + number))
    by_crate, edits = {}, chosen(sys.argv[1:])
    check_names(edits)
    for edit in edits:
        by_crate.setdefault(crate_of(edit.tests()[0]), []).append(edit)
    refused = 0
    for crate, own in by_crate.items():
        for edit, said in try_together(own, crate).items():
            print(f"{said or NOT_TRIED}: {os.path.relpath(edit.path, TOP)} ({', '.join(edit.tests())})", flush=True)
            refused += said == "refused"
    print(f"{refused} refused, {len(edits) - refused} not")
    return 0 if refused == len(edits) else 1


if __name__ == "__main__":
    sys.exit(main())
