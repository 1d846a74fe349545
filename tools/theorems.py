#!/usr/bin/env python3
"""Holds docs/THEOREMS.md against the sources: `tools/theorems.py` exits 1 and says what differs, `tools/theorems.py --write` mends the statements.

A line `<!-- FILE NAME -->` in the document is followed by the statement of NAME as FILE has it, indented. In the tables each name in
backticks has to stand in one of the files that its row names, and each edit (CRATE/EDIT) has to exist.
"""
import re
import sys
from pathlib import Path

ROOT = Path(__file__).resolve().parent.parent
PAGE = ROOT / "docs/THEOREMS.md"
MARK = re.compile(r"<!-- (\S+) (\S+) -->\n\n(?:    .*\n)*\n*")


def statement(file, name):
    """A contract (to the function's body), a record, or a theorem (to its proof)."""
    lines = (ROOT / file).read_text().splitlines()
    start = next((i for i, l in enumerate(lines) if re.match(rf"\s*pub (?:fn|record )?\s*{re.escape(name)}(?:\W|$)", l)), None)
    if start is None:
        sys.exit(f"theorems.py: {file} has no {name}")
    indent = re.match(r"\s*", lines[start])[0]
    found = [lines[start]]
    for line in lines[start + 1 :]:
        if line.strip() in ("", "{") or re.match(rf"{indent}(?:unfolding |{re.escape(name)}(?: |$))", line):
            break
        found.append(line)
    return "".join(f"    {l[len(indent):]}\n" for l in found)


def files(cell):
    """The files that a table's last cell or a name's brackets mean."""
    for word in re.split(r"[,\s]+", cell):
        for file in (ROOT / word, ROOT / f"crates/meaning/specs/{word}.antt", ROOT / f"crates/meaning/proofs/{word}.antt"):
            if word and file.is_file():
                yield file
            elif word and file.is_dir():
                yield from file.rglob("*.rt")


def missing(page):
    for line in page.splitlines():
        cells = [c.strip() for c in line.strip().strip("|").split("|")] if line.startswith("|") else []
        texts = [f.read_text() for f in files(cells[-1])] if len(cells) == 3 else []
        if texts:
            for name in re.findall(r"`([^`\s]+)`", cells[1]):
                last = name.split("::")[-1]
                if not any(re.search(rf"(?<![\w-]){re.escape(last)}(?![\w-])", t) for t in texts):
                    yield f"{name} is not in {cells[-1]}"
        for crate, edit in re.findall(r"\b(\w+)/(\w+)\b", line.partition(" edit")[2]):
            if not (ROOT / f"crates/{crate}/must-fail/{edit}.edit").is_file():
                yield f"there is no edit {crate}/{edit}"


def main():
    if sys.argv[1:] not in ([], ["--write"]):
        sys.exit("usage: tools/theorems.py [--write]")
    page = PAGE.read_text()
    wanted = MARK.sub(lambda m: f"<!-- {m[1]} {m[2]} -->\n\n{statement(m[1], m[2])}\n", page)
    if sys.argv[1:]:
        PAGE.write_text(wanted)
    elif wanted != page:
        sys.exit("theorems.py: a statement in docs/THEOREMS.md is not its source's; --write mends it")
    wrong = list(missing(wanted))
    if wrong:
        sys.exit("theorems.py: " + "\ntheorems.py: ".join(wrong))
    print(f"{len(MARK.findall(wanted))} statements of docs/THEOREMS.md are those of the sources")


main()
