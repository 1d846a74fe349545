#!/usr/bin/env python3
"""The table of docs/SIZES.md, but for the seconds: `tools/sizes.py`.

Lines of each crate. What has to be believed is computed: every declaration of specs/, or of a lemma file of proofs/, that
the contracts of public functions and the theorems of meaning's Theorems and Marked reach, through the definitions that they name.
The rest of specs/ are laws, which add nothing to believe. `tools/sizes.py --believed` lists the declarations, file by file.
"""
import re
import sys
from pathlib import Path

ROOT = Path(__file__).resolve().parent.parent
TOKEN = re.compile(r'[^\s(){}.;,@"«»]+')
USE = re.compile(r"^\s*(?:ghost )?(?:pub )?use Rattle\.(\w+?)\.((?:specs|proofs)\.[\w.]+?)(?:\.\{([^}]*)\})?(?: as (\S+?))?;?$")
DECLARATION = re.compile(r"^\s*(?:unfoldable |abbrev |pub )*(?:(?:data|record) )?(\S+)(?: \{[^}]*\})?(?: [({].*)? :(?: |$)")
THEOREMS = [("meaning", "proofs.Theorems"), ("meaning", "proofs.Marked")]


def crates():
    return [line.split(":")[0].split()[0] for line in (ROOT / "crates.txt").read_text().splitlines() if re.match(r"\w+( staticlib)?:", line)]


class Source:
    """A file's imports, by name and by alias, and its declarations (antt only)."""

    def __init__(self, crate, module, text):
        self.crate, self.module, self.imports, self.aliases, self.declarations = crate, module, {}, {}, {}
        for line in text.splitlines():
            use = USE.match(line)
            if use and use[3] is not None:
                for item in use[3].split(","):
                    name, _, local = item.strip().partition(" as ")
                    self.imports[local or name] = (use[1], use[2], name)
            elif use:
                self.aliases[use[4] or use[2].split(".")[-1]] = (use[1], use[2])

    def declare(self, text):
        """Declarations are set apart by blank lines; a paragraph that starts none belongs to the one before."""
        last = None
        for paragraph in re.split(r"\n\s*\n", text):
            lines = [l for l in paragraph.splitlines() if l.strip() and not re.match(r"\s*(--|use |module )", l)]
            head = DECLARATION.match(lines[0]) if lines else None
            if head:
                last = head[1]
                self.declarations[last] = (last, lines)
                if re.match(r"\s*(?:pub )?data ", lines[0]):
                    for line in lines[1:]:
                        for constructor in line.split(" : ")[0].split():
                            self.declarations[constructor] = (last, lines)
            elif lines and last:
                self.declarations[last][1].extend(lines)

    def names(self, text):
        """The declarations that a text of this file names."""
        for found in TOKEN.finditer(text):
            name, before = found[0], text[: found.start()]
            if re.match(r" [=:](?: |$)", text[found.end() :]):
                continue  # a field's label
            if before.endswith("."):
                alias = re.search(r'([^\s(){}.;,@"«»]+)\.$', before)
                if alias and alias[1] in self.aliases:
                    yield (*self.aliases[alias[1]], name)
            elif name in self.declarations:
                yield (self.crate, self.module, name)
            elif name in self.imports:
                yield self.imports[name]


def specs():
    found = {}
    for crate in crates():
        home = ROOT / "crates" / crate
        lemmas = [f for f in (home / "proofs").rglob("*.antt") if f.stem not in ("Answers", "Invariants", "Proof")]
        for file in sorted([*(home / "specs").rglob("*.antt"), *lemmas]):
            module = ".".join(file.relative_to(home).with_suffix("").parts)
            text = file.read_text()
            found[crate, module] = Source(crate, module, text)
            found[crate, module].declare(text)
    return found


def contracts(text):
    """The requires and ensures of a file's public functions."""
    lines = text.splitlines()
    for i, line in enumerate(lines):
        if re.match(r'\s*pub (?:extern "C" )?fn ', line):
            within = False
            for clause in lines[i + 1 :]:
                if clause.strip() == "{":
                    break
                within = within or re.match(r"\s*(?:requires|ensures)\b", clause)
                if within:
                    yield clause


def believed(sources):
    """Every declaration reached: {(crate, module): {name: lines}}."""
    todo = []
    for crate in crates():
        for file in sorted((ROOT / "crates" / crate / "src").rglob("*.rt")):
            text = file.read_text()
            source = Source(crate, "", text)
            todo += [name for clause in contracts(text) for name in source.names(clause)]
    reached = {}
    for place in THEOREMS:
        if place in sources:
            source = sources[place]
            for name, (_, lines) in source.declarations.items():
                # of a theorem only its statement counts
                end = next((i for i, l in enumerate(lines) if re.match(rf"\s*(?:unfolding |{re.escape(name)}(?: |$))", l)), len(lines))
                todo += source.names("\n".join(lines[:end]))
    while todo:
        crate, module, name = todo.pop()
        source = sources.get((crate, module))
        if not source or name not in source.declarations:
            continue
        head, lines = source.declarations[name]
        if head in reached.setdefault((crate, module), {}):
            continue
        reached[crate, module][head] = lines
        todo += source.names("\n".join(lines))
    return reached


def lines(files):
    return sum(len(f.read_text().splitlines()) for f in files)


def main():
    sources = specs()
    reached = believed(sources)
    counts = {}
    for (crate, module), names in reached.items():
        place = crate, module.split(".")[0]
        counts[place] = counts.get(place, 0) + sum(map(len, names.values()))
    if "--believed" in sys.argv:
        for (crate, module), names in sorted(reached.items()):
            print(f"{crate}/{module}: {sum(len(l) for l in names.values())} lines: {' '.join(sorted(names))}")
        print(f"{sum(len(n) for n in reached.values())} declarations, {sum(counts.values())} lines")
        return
    if sys.argv[1:]:
        sys.exit(__doc__)
    rows = {}
    for crate in crates():
        home = ROOT / "crates" / crate
        spec, proof = counts.get((crate, "specs"), 0), counts.get((crate, "proofs"), 0)
        rows[crate] = [
            lines((home / "src").rglob("*.rt")),
            spec + proof,
            lines((home / "specs").rglob("*.antt")) - spec,
            lines((home / "proofs").rglob("*.antt")) - proof,
            len(list((home / "must-fail").glob("*.edit"))),
        ]
    print("| crate | code | believed | laws | proofs | edits |")
    print("|---|---|---|---|---|---|")
    for crate, row in rows.items():
        print(f"| `{crate}` |", " | ".join(f"{n:,}" for n in row), "|")
    print("| all |", " | ".join(f"{sum(column):,}" for column in zip(*rows.values())), "|")


main()
