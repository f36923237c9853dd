#!/usr/bin/env python3
"""Compares the lists of the pages with those of the program, taken from its sources: keys of a setup, operator's commands, metrics,
texts of the log, reasons, crates, the libraries that are trusted, pages of definitions, planted bugs and the tests that refuse them; and looks at each link, command
and path that the pages name. What is missing is printed, a line each; status 1 where something is. Run it anywhere: it finds the
repository by its own place."""
import glob
import os
import re
import sys

import planted_table
import setup_page

ROOT = os.path.dirname(os.path.dirname(os.path.abspath(__file__)))
found = []
looked = 0


def text_of(path):
    with open(f"{ROOT}/{path}", encoding="utf-8") as f:
        return f.read()


def source(crate, file):
    return text_of(f"crates/{crate}/src/{file}.rt")


def crates():
    """The libraries of each crate, as crates.txt has them."""
    listed = {}
    for line in text_of("crates.txt").splitlines():
        head, colon, libraries = line.partition("#")[0].partition(":")
        if colon:
            listed[head.split()[0]] = libraries.split()
    return listed


def between(text, start, end):
    """The text from one mark to the next other one."""
    _, mark, rest = text.partition(start)
    if not mark:
        sys.exit(f"docs_lists: {start!r} stands nowhere; this script has to follow the source that changed")
    return rest.partition(end)[0]


def expect(holds, what):
    global looked
    looked += 1
    if not holds:
        found.append(what)


def section(page, heading):
    """A section of a page, to the next heading of the same depth."""
    depth = heading.split(" ")[0]
    return between(f"\n{text_of(page)}\n{depth} ", f"\n{heading}", f"\n{depth} ")


def rows(text):
    """The rows of a page's tables, as lists of cells."""
    return [[cell.strip() for cell in line.strip("|").split(" | ")] 
            for line in text.splitlines() if line.startswith("|") and not line.startswith("|--")]


def spans(text):
    """What stands in code quotes."""
    return [double or single for double, single in re.findall(r"``\s?(.+?)\s?``|`([^`]+)`", " ".join(text.split()))]


def keys():
    for heading, table in setup_page.tables().items():
        lines_of = section(setup_page.PAGE, heading).splitlines()
        for row in table.splitlines():
            expect(row in lines_of, f"{setup_page.PAGE}, {heading}: `tools/setup_page.py --write` would write {row}")
    page = setup_page.page()
    expect(setup_page.written(page) == page, f"{setup_page.PAGE}: the tables are not those that `tools/setup_page.py --write` writes")


def lines():
    verbs = re.findall(r'"(\w+)" => Verb::', source("pg_lines", "verb"))
    ways = re.findall(r'"(\w+)" => Way::', source("pg_lines", "steer"))
    own = re.findall(r'"(\w+)" => return Ok\(Request::', source("pg_console", "console"))
    own += re.findall(r'"(\w+)" => Topic::', source("pg_lines", "question"))
    table = rows(section("docs/OPERATING.md", "## Commands"))[1:]
    told = {span.split(" ")[0] for cells in table for span in spans(cells[0])}
    words = source("pdcgw", "help")
    for word in verbs + ways + own:
        expect(word in told, f"docs/OPERATING.md, Commands: {word} is missing")
        expect(re.search(rf"\b{word}\b", words), f"`pdcgw run --help`: the line {word} is missing")
    expect(verbs and ways and own, "the words of lines were not found in the sources")
    for word in told - set(verbs + ways + own):
        expect(False, f"docs/OPERATING.md, Commands: there is no {word}")


def metrics():
    listed = set(re.findall(r'"(pdcgw_\w+)"', source("pg_status", "metrics") + source("pg_status", "quality_metrics") + source("pg_status", "stream_metrics")))
    told = set()
    for cells in rows(section("docs/OPERATING.md", "## The page and the metrics")):
        start = ""
        for span in spans(cells[0]):
            if span.startswith("pdcgw_"):
                start = "_".join(span.split("_")[:2])
            told.add(span.replace("..", start, 1))
    told = {name for name in told if name.startswith("pdcgw_")}
    for name in listed - told:
        expect(False, f"docs/OPERATING.md, metrics: {name} is missing")
    for name in told - listed:
        expect(False, f"docs/OPERATING.md, metrics: there is no {name}")
    expect(len(listed) > 20, "the metrics were not found in the sources")


def log():
    page = " ".join(section("docs/OPERATING.md", "## The log").split())
    table_rows = rows(section("docs/OPERATING.md", "## The log"))
    levels = {}
    arms = between(source("pg_log", "journal"), "fn level(", "\n    }")
    for arm, level in re.findall(r"((?:LogEvent::\w+[\s|{]*)+)(?:=> )?\{?\s*(?:=>\s*\{?\s*)?Level::(\w+)", arms):
        levels.update({name: level.upper() for name in re.findall(r"LogEvent::(\w+)", arm)})
    words = source("pg_log", "messages")
    texts = re.findall(r'LogEvent::(\w+) =>\s*"([^"]+)"', between(words, "fn said(", "\n    }"))
    for notice, text in texts:
        expect(notice in levels, f"pg_log journal.rt: no level of {notice} was found")
        # What is known beside may follow: an address, a stream, a reason.
        told = re.compile(re.escape(text) + r"(?:[ :,].*)?")
        table = [cells for cells in table_rows if any(told.fullmatch(it) for it in spans(cells[1]))]
        for cells in table:
            level = levels.get(notice)
            expect(cells[0].strip("| ") == level, f"docs/OPERATING.md, the log: {text!r} is logged as {level}")
        expect(table, f"docs/OPERATING.md, the log: no row has {text!r}")
    expect(len(texts) > 30, "the texts of the log were not found in the sources")
    for start, end in (("fn write_fault", "\n}"), ("fn system_words", "\n}"), ("Detail::ClosedByPeer", ",")):
        for text in re.findall(r'(?:=> |str\()"(?:: )?([^"]+)"', between(words, start, end)):
            expect(text in page, f"docs/OPERATING.md, the log: the reason {text!r} is missing")


def reasons():
    enum = between(source("pg_wire", "refusal"), "pub enum Refusal {", "\n}")
    listed = {int(number): name for name, number in re.findall(r"(\w+) = (\d+),", enum)}
    told = {}
    for names in re.findall(r"\*\*([^*]+)\*\*", section("docs/OPERATING.md", "## Reasons by number")):
        told.update({int(number): name for number, name in (it.split(" ") for it in names.split(", "))})
    expect(len(listed) == 40, "the reasons were not found in the sources")
    for number, name in listed.items():
        expect(told.get(number) == name, f"docs/OPERATING.md, reasons: {number} {name} is missing")
    for number in set(told) - set(listed):
        expect(False, f"docs/OPERATING.md, reasons: there is no {number}")
    for page in PAGES:
        for number, name in re.findall(r"\b(\d{1,2}) ([A-Z][a-z]+[A-Z]\w+)", text_of(page)):
            if name in listed.values():
                expect(listed.get(int(number)) == name, f"{page}: {number} is not {name}")


def below(of, listed):
    """The crates that a crate stands on, and all that those stand on."""
    found_below, waiting = set(), list(listed.get(of, ()))
    while waiting:
        it = waiting.pop()
        if it not in found_below:
            found_below.add(it)
            waiting.extend(listed.get(it, ()))
    return found_below


def table_of_crates():
    listed = crates()
    page = section("docs/ARCHITECTURE.md", "## What each crate does")
    told = {cells[0].strip("| "): set(re.findall(r"\bpg_\w+\b", cells[2])) for cells in rows(page)[1:]}
    for name, libraries in listed.items():
        if name.endswith("_tests"):
            expect(re.search(rf"\b{name}\b", page), f"docs/ARCHITECTURE.md: the crate {name} is missing")
            continue
        expect(name in told, f"docs/ARCHITECTURE.md: the crate {name} is missing")
        for other in sorted(set(libraries) & set(listed) - below(name, told)):
            expect(False, f"docs/ARCHITECTURE.md: {name} stands on {other} too")
        for other in sorted(told.get(name, set()) - below(name, listed)):
            expect(False, f"docs/ARCHITECTURE.md: {name} does not stand on {other}")
    for name in set(told) - set(listed):
        expect(False, f"docs/ARCHITECTURE.md: there is no crate {name}")


def trusted():
    listed = crates()
    ported = {it for libraries in listed.values() for it in libraries} - set(listed) | {"std"}
    told = set(re.findall(r"`(\w+)`", section("docs/PROOFS.md", "## What is trusted"))) - {"rt"}
    for name in ported - told:
        expect(False, f"docs/PROOFS.md, what is trusted: {name} is missing")
    for name in told - ported:
        expect(False, f"docs/PROOFS.md, what is trusted: no crate stands on {name}")


def definitions():
    text = section("docs/PROOFS.md", "## A reading order for the headline")
    table = between(text, "**2. The definitions**", "**3. The running service.**")
    pages = [(crate, name) for cells in rows(table)[1:]
             for crate, names in re.findall(r"(pg_\w+): ((?:`\w+`(?: \([^)]*\))?(?:, )?)+)", cells[1])
             for name in re.findall(r"`(\w+)`", re.sub(r"\([^)]*\)", "", names))]
    service = re.findall(r"(pg_\w+): ((?:`\w+`(?:, )?)+)", between(text, "**3. The running service.**", "Which source"))
    both = pages + [(crate, name) for crate, names in service for name in re.findall(r"`(\w+)`", names)]
    for crate, name in both:
        expect(os.path.exists(f"{ROOT}/crates/{crate}/specs/{name}.antt"), f"docs/PROOFS.md: {crate} has no page {name}")
    said = re.search(r"(\d+) pages of some ([\d,]+) lines", table)
    expect(said and int(said[1]) == len(pages), f"docs/PROOFS.md: the reading order has {len(pages)} pages")
    found_pages = [it for it in pages if os.path.exists(f"{ROOT}/crates/{it[0]}/specs/{it[1]}.antt")]
    lines_of = sum(text_of(f"crates/{crate}/specs/{name}.antt").count("\n") for crate, name in found_pages)
    expect(said and abs(int(said[2].replace(",", "")) - lines_of) <= 100, f"docs/PROOFS.md: the reading order has {lines_of} lines")


def quoted():
    """The contract that PROOFS.md quotes, beside its source."""
    block = between(text_of("docs/PROOFS.md"), "Quoted:\n\n```\n", "```")
    real = re.sub(r"\s+", "", source("pg_serve", "world") + text_of("crates/pg_serve/specs/Headline.antt"))
    for line in block.splitlines():
        expect(re.sub(r"\s+", "", line) in real, f"docs/PROOFS.md: the contract has no {line.strip()!r}")


def code_of(names):
    """The sources of these crates."""
    return "".join(text_of(os.path.relpath(it, ROOT)) for name in names for it in sorted(glob.glob(f"{ROOT}/crates/{name}/src/**/*.rt", recursive=True)))


def proved():
    """The calls and clauses in the rows of PROOFS.md are in the sources of the crates that the heading above them names."""
    for part in re.split(r"\n### ", section("docs/PROOFS.md", "## What is proved"))[1:]:
        names = re.findall(r"\bpg_\w+", part.partition("\n")[0])
        code = code_of(names)
        for line in part.splitlines():
            # (a cell may be empty)
            cells = line.strip("|").split("|")
            if not line.startswith("|") or len(cells) < 3:
                continue
            for call in spans(cells[0]):
                last = call.split("::")[-1]
                expect(re.search(rf"\b(?:fn|struct|enum) {last}\b", code), f"docs/PROOFS.md: {' and '.join(names)} have no {call}")
            for clause in spans(cells[1]):
                expect(re.search(rf"\bensures {clause} ", code), f"docs/PROOFS.md: {' and '.join(names)} have no clause {clause}")


def numbers():
    """The numbers at the head of PROOFS.md; those behind `some` within a tenth."""
    edits = planted_table.edits()
    by_test = sum(bool(it.tests()) for it in edits)
    public = re.findall(r"^ *pub (?:const )?fn \w+", code_of(crates()), re.M)
    of_service, of_crates = tests()
    real = {
        "crates": len(crates()),
        "public functions": len(public),
        "planted bugs that the": len(edits) - by_test,
        "planted bugs that a test": by_test + len(planted_table.listed()),
        "tests of calls": len(of_crates),
        "tests of the running": len(of_service),
        "worked rows": len(glob.glob(f"{ROOT}/crates/pdcgw_rows/data/*.script")),
    }
    head = text_of("docs/PROOFS.md").partition("\n## ")[0]
    said = {cells[0].strip("| ").replace("[", "").replace("](PLANTED.md)", ""): cells[1].strip(" |") for cells in rows(head)[1:]}
    for start, number in real.items():
        told = [it for row, it in said.items() if row.startswith(start)]
        some = told and told[0].startswith("some ")
        off = abs(int(told[0].removeprefix("some ").replace(",", "")) - number) if told else number
        expect(told and off <= (number // 10 if some else 0), f"docs/PROOFS.md: {start}: the number is {number}")


def tests():
    """The tests by name: functions of tests/, and of the crates."""
    of_service = [it for path in glob.glob(f"{ROOT}/tests/*.py") for it in re.findall(r"^def (test_\w+)", text_of(os.path.relpath(path, ROOT)), re.M)]
    marked = re.compile(r"^ *#\[test\]\n(?: *(?:#|//).*\n)* *(?:pub )?fn (\w+)", re.M)
    of_crates = [it for path in glob.glob(f"{ROOT}/crates/*/src/**/*.rt", recursive=True) for it in marked.findall(text_of(os.path.relpath(path, ROOT)))]
    return of_service, of_crates


def planted():
    """Each edit has its two lines and fits the sources; the tests that refuse bugs are there; the page has the numbers."""
    for it in planted_table.wrong():
        expect(False, it)
    known = {it for some in tests() for it in some}
    for edit in planted_table.edits():
        for test in edit.tests() or [None]:
            expect(test is None or test in known, f"{os.path.relpath(edit.path, ROOT)}: there is no test {test}")
    for function, _, named in planted_table.listed():
        crate, _, function = function.partition(" ")
        code = "".join(text_of(os.path.relpath(it, ROOT)) for it in glob.glob(f"{ROOT}/crates/{crate}/src/**/*.rt", recursive=True))
        expect(re.search(rf"\bfn {function.split('::')[-1]}\b", code), f"{planted_table.LIST}: {crate} has no function {function}")
        for test in named.split(", "):
            expect(test in known, f"{planted_table.LIST}: there is no test {test}")
    edits = planted_table.edits()
    numbers = [
        sum(it.folder == "must-fail" for it in edits),
        sum(it.folder == "planted" and not it.tests() for it in edits),
        sum(bool(it.tests()) for it in edits),
        len(planted_table.listed()),
    ]
    told = [int(cells[1]) for cells in rows(text_of("docs/PLANTED.md").partition("\n## ")[0])[1:]]
    expect(told == numbers, f"docs/PLANTED.md: the numbers are {numbers}")


def anchor(heading):
    """The anchor that a heading has on the page."""
    plain = re.sub(r"[^\w\- ]", "", re.sub(r"\[([^\]]*)\]\([^)]*\)", r"\1", heading).lower())
    return plain.strip().replace(" ", "-")


def without_blocks(text):
    return re.sub(r"^```.*?^```", "", text, flags=re.S | re.M)


def links():
    anchors = {page: {anchor(it) for it in re.findall(r"^#+ (.*)$", without_blocks(text_of(page)), re.M)} for page in PAGES}
    for page in PAGES:
        for to in re.findall(r"\]\(([^)\s]+)\)", re.sub(r"`[^`\n]*`", "", without_blocks(text_of(page)))):
            if re.match(r"\w+:", to):
                continue
            file, _, place = to.partition("#")
            target = os.path.normpath(os.path.join(os.path.dirname(page), file)) if file else page
            expect(os.path.exists(f"{ROOT}/{target}"), f"{page}: {to} leads to no file")
            if place and target in anchors:
                expect(place in anchors[target], f"{page}: {to} leads to no heading")


def options():
    """The options of each word of the program."""
    texts = {name: source("pdcgw", name) for name in ("main", "ctl")}
    texts |= {"tools": source("pg_tools", "command_line"), "demo": source("pg_demo", "command_line"), "explain": source("pg_recordings", "command_line")}
    words = {word: set() for word in re.findall(r'Command::new\(alloc, "(\w+)"\)', "".join(texts.values()))}
    of = {word: between(texts.get(word, texts["tools"]), f"fn {word}_words", "\n}") for word in ("simulate", "watch", "bridge", "demo", "explain")}
    of["ctl"] = between(texts["ctl"], "fn words", "\n}")
    for word, text in of.items():
        file = texts.get(word, texts["tools"])
        for table in re.findall(r"&([A-Z]+)\)", text):
            text += between(file, f"static {table}:", "\n];")
        if "with_stream(" in text:
            text += between(file, "fn with_stream", "\n}")
        words[word] = set(re.findall(r'long\("([\w-]+)"\)', text)) | set(re.findall(r'(?:valued\(\s*alloc,\s*|name: )"([\w-]+)"', text))
    for word in ("run", "check"):
        words[word] = {"setup"}
    return words


def commands():
    words = options()
    expect(len(words["simulate"]) >= 9 and len(words["watch"]) == 6, "the options were not found in the sources")
    for page in PAGES:
        text = text_of(page)
        blocks = re.findall(r"^```\w*\n(.*?)^```", text, re.S | re.M)
        code = spans(without_blocks(text)) + [line for block in blocks for line in block.splitlines()]
        for line in code:
            said = re.match(r"(?:rt (?:try|run) -- |pdcgw )(\w+)(.*)", line.strip())
            # What a header of the simulation says is no command.
            if said and not said[2].startswith(":"):
                expect(said[1] in words, f"{page}: the program has no word {said[1]}")
                for option in re.findall(r"\s--([\w-]+)", said[2]):
                    known = words.get(said[1], set()) | {"help"}
                    expect(option in known, f"{page}: `pdcgw {said[1]}` has no option --{option}")
            for path in re.findall(r"\b(?:sh|python3) ([\w./-]+\.(?:sh|py))", line):
                expect(os.path.exists(f"{ROOT}/{path}"), f"{page}: there is no {path}")
            is_path = re.fullmatch(r"(?:docs|tools|bench|crates|package|tests)/[\w./-]+", line)
            if is_path and "/out/" not in line and "CRATE" not in line:
                expect(os.path.exists(f"{ROOT}/{line}"), f"{page}: there is no {line}")


PAGES = [os.path.relpath(path, ROOT) for path in sorted(glob.glob(f"{ROOT}/*.md") + glob.glob(f"{ROOT}/docs/*.md"))]
for look in (keys, lines, metrics, log, reasons, table_of_crates, trusted, definitions, quoted, proved, numbers, planted, links, commands):
    look()
print("\n".join(found + [f"{looked} places looked at, {len(found)} wrong"]))
sys.exit(1 if found else 0)
