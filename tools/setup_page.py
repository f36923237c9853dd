#!/usr/bin/env python3
"""Prints the tables of docs/SETUP.md, from the keys of a setup file in crates/pg_operator/src/keys.rt, what each kind of value has to be, in
kind.rt beside it, and the examples and meanings in key_texts.rt. With --write it replaces the tables of the page. Run it anywhere: it finds the repository by its own place."""
import os
import re
import sys

ROOT = os.path.dirname(os.path.dirname(os.path.abspath(__file__)))
PAGE = "docs/SETUP.md"
# The heading above each table of the page, by the list of its keys.
HEADINGS = {"FILE": "## The file itself", "PMU": "## `[[pmu]]`", "SUBSCRIBER": "## `[[subscriber]]`",
            "STREAM": "## `[[subscriber.stream]]`"}
TEXT = r'"((?:[^"\\]|\\.|\\\n)*)"'
KEY = re.compile(r"const (\w+): SetupKey = SetupKey \{ name: " + TEXT + r", kind: Kind::(\w+)(?:\(([^)]*)\))?, absent: Absent::(\w+)"
                 r"(?:\((.*?)\))? \};")
TEXTS = re.compile(r"KeyText \{ key: SetupKey::(\w+), example: " + TEXT + r",\s+meaning: " + TEXT + r" \}")


def source(file):
    with open(f"{ROOT}/crates/pg_operator/src/{file}.rt", encoding="utf-8") as f:
        return f.read()


def plain(literal):
    """What a text of the source says."""
    return re.sub(r"\\(.)", r"\1", re.sub(r"\\\n\s*", "", literal))


def numbers():
    """The constants that are numbers, by name."""
    return {name: number.replace("_", "") for file in ("keys", "kind")
            for name, number in re.findall(r"const (\w+): u\w+ = ([\d_]+);", source(file))}


def kinds():
    """What a value of each kind has to be."""
    arm = re.compile(r"Kind::(\w+) => (?:\{\s*)?(?:f\.write_str|write!)\(\s*(?:f,\s*)?" + TEXT + r"(?:,\s*(\w+))?,?\s*\)")
    return {kind: plain(text).replace("{}", numbers().get(limit, "{}")) for kind, text, limit in arm.findall(source("kind"))}


def row(key, example, meaning):
    """The row of a key."""
    name, kind, limits, absent, otherwise = key
    least, _, most = limits.replace("_", "").partition(", ")
    values = f"{least} to {most}" if kind == "Whole" else kinds()[kind]
    if absent == "Required":
        otherwise = "required"
    elif absent == "Words":
        otherwise = plain(otherwise[1:-1])
    else:
        number = otherwise.removesuffix(" as u32").replace("_", "")
        otherwise = number if number.isdigit() else numbers()[otherwise.removesuffix(" as u32")]
    return f"| `{plain(name)}` | {plain(meaning)} | {values} | {otherwise} | `{plain(example)}` |\n"


def tables():
    """The tables of the page, by their headings. Keys that are tables have headings of their own."""
    keys = {found[0]: found[1:] for found in KEY.findall(source("keys"))}
    made = {}
    for table, heading in HEADINGS.items():
        listed = re.search(rf"const {table}_KEYS: \[SetupKey; (\d+)\] = \[(.*?)\];", source("keys"), re.S)
        names = re.findall(r"SetupKey::(\w+)", listed[2])
        read = [it for it in names if it in keys]
        if len(read) != int(listed[1]):
            sys.exit(f"setup_page: keys.rt, {table}_KEYS: {read} were found; this script has to follow the source that changed")
        described = re.search(rf"static {table}_TEXTS: \[KeyText; \d+\] = \[(.*?)\n\];", source("key_texts"), re.S)
        texts = TEXTS.findall(described[1])
        wanted = [it for it in names if keys[it][1] != "Tables"]
        if [it for it, _, _ in texts] != wanted:
            sys.exit(f"setup_page: key_texts.rt, {table}_TEXTS: the texts of {wanted} are wanted in this order")
        rows = [row(keys[name], example, meaning) for name, example, meaning in texts]
        made[heading] = "| Key | Meaning | Values | If absent | Example |\n|---|---|---|---|---|\n" + "".join(rows)
    return made


def written(page):
    """The page with these tables. Each is the first one under its heading."""
    for heading, table in tables().items():
        start = page.index(f"\n{heading}") + 1
        found = re.compile(r"(?:^\|.*\n)+", re.M).search(page, start)
        page = page[: found.start()] + table + page[found.end():]
    return page


def page():
    with open(f"{ROOT}/{PAGE}", encoding="utf-8") as f:
        return f.read()


def main():
    if sys.argv[1:] == ["--write"]:
        text = written(page())
        with open(f"{ROOT}/{PAGE}", "w", encoding="utf-8") as f:
            f.write(text)
    elif len(sys.argv) == 1:
        print("\n".join(f"{heading}\n\n{table}" for heading, table in tables().items()), end="")
    else:
        sys.exit("usage: setup_page.py [--write]")


if __name__ == "__main__":
    main()
