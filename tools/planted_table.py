#!/usr/bin/env python3
"""Prints the table of the planted bugs, from the two lines at the head of each edit, `bug:` and `refused:`, and from docs/planted_tests.txt.

With --check it prints instead what is wrong of them, a line each, and their number: an edit that lacks one of the two lines, or that can't be
applied to the sources. Status 1 where something is."""
import glob
import os
import sys

ROOT = os.path.dirname(os.path.dirname(os.path.abspath(__file__)))
LIST = "docs/planted_tests.txt"
FOLDERS = "must-fail", "planted"
# What the line `refused:` begins with where no clause refuses the bug, but a test does.
BY_TEST = "test "


class Edit:
    """An edit that plants a bug."""

    def __init__(self, path):
        self.path = path
        self.crate, self.folder, file = path.split("/")[-3:]
        self.name = file.removesuffix(".edit")
        with open(path, encoding="utf-8") as f:
            self.lines = f.read().splitlines()

    def said(self, word):
        """What its line of this word says; nothing where it has not just one, among the first two."""
        found = [line.partition(": ")[2].strip() for line in self.lines[:2] if line.startswith(f"{word}: ")]
        return found[0] if len(found) == 1 else ""

    def tests(self):
        """The tests that refuse it; none where a clause does."""
        refused = self.said("refused")
        return refused.removeprefix(BY_TEST).split(", ") if refused.startswith(BY_TEST) else []

    def plant(self, top, texts):
        """Plants the bug in the texts of files by their paths, which are read below `top` where they are not there yet. The result is why
        that can't be done, and else None: each `old:` has to be in its file exactly once."""
        path, old, pairs = None, None, 0
        for line in self.lines:
            word, _, text = line.partition(":")
            text = text.removeprefix(" ")
            if word == "file":
                path = f"{top}/crates/{self.crate}/{text.strip()}"
                if not os.path.exists(path):
                    return f"there is no {text}"
            elif word == "old":
                old = text
            elif word == "new":
                if path is None or not old:
                    return "a line `new:` has no `file:` and `old:` before it"
                if path not in texts:
                    with open(path, encoding="utf-8") as f:
                        texts[path] = f.read()
                found = texts[path].count(old)
                if found != 1:
                    return f"{old.strip()!r} is in its file {found} times"
                texts[path], old, pairs = texts[path].replace(old, text), None, pairs + 1
        return None if pairs else "it has no pair of `old:` and `new:`"

    def misfit(self):
        """Why it can't be applied, if it can't."""
        return self.plant(ROOT, {})


def edits():
    """All edits, by crate."""
    return [Edit(path) for folder in FOLDERS for path in sorted(glob.glob(f"{ROOT}/crates/*/{folder}/*.edit"))]


def listed():
    """The bugs that have no edit: function, bug, tests."""
    with open(f"{ROOT}/{LIST}", encoding="utf-8") as f:
        return [[cell.strip() for cell in line.split("|")] for line in f if line.strip() and not line.startswith("#")]


def wrong():
    """What is wrong, a line each."""
    found = []
    for edit in edits():
        place = os.path.relpath(edit.path, ROOT)
        found += [f"{place}: there is no line `{word}: ..` among the first two" for word in ("bug", "refused") if not edit.said(word)]
        misfit = edit.misfit()
        if misfit:
            found.append(f"{place}: it can't be applied: {misfit}")
    found += [f"{LIST}: not three cells: {' | '.join(row)}" for row in listed() if len(row) != 3 or not all(row)]
    return found


def main():
    if sys.argv[1:] == ["--check"]:
        found = wrong()
        print("\n".join(found + [f"{len(edits())} edits, {len(found)} wrong"]))
        return 1 if found else 0
    if sys.argv[1:]:
        print("usage: planted_table.py [--check]", file=sys.stderr)
        return 2
    print("| Crate | Folder | Edit | Bug | Refused |\n|---|---|---|---|---|")
    for edit in sorted(edits(), key=lambda it: (it.crate, it.folder, it.name)):
        print(f"| {edit.crate} | {edit.folder} | {edit.name} | {edit.said('bug')} | {edit.said('refused')} |")
    for function, bug, tests in listed():
        crate, _, function = function.partition(" ")
        print(f"| {crate} | | | {function}: {bug} | {BY_TEST}{tests} |")
    return 0


if __name__ == "__main__":
    sys.exit(main())
