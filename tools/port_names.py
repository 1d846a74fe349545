#!/usr/bin/env python3
"""Brings the names of this repository's definitions and lemmas to the spelling of today's Rattle, after its own script port.py ran.

usage: tools/port_names.py          once, at the top of the repository; also on a copy of an older commit, after port.py
       tools/port_names.py --map    prints the old and the new names and changes nothing

Words are in snake case, facts and types in camel case. A lemma whose name would fall together with a definition's gets `_lem`. Names of src/, exported
names, strings and inputs keep their spelling. Answers of goals keep theirs: they are named by the checker.
"""

import collections
import os
import re
import sys

WORD = re.compile(r"[^\s(){}\[\].;,«»`\"@]+")
PLAIN = re.compile(r"^[A-Za-z0-9_'₀-₉-]+$")
SIGNATURE = re.compile(r"^(?:abbrev |unfoldable )?(?:pub )?(?:abbrev |unfoldable )?(?:(?:data|record|ruleset) )?([^\s:(){}.;,]+(?: [^\s:(){}.;,]+)*) : ?(.*)")
MEMBER = re.compile(r"^ +(?:pub )?([^\s:(){}.;,]+(?: [^\s:(){}.;,]+)*) : ?(.*)")
CAMEL = re.compile(r"^[a-z][a-z0-9]*[A-Z][A-Za-z0-9'-]*$")
IMPORT = re.compile(r"^(?:ghost )?(?:pub )?use ([\w'+.-]+)\.\{([^}]*)\}")

# Facts that had a word's spelling.
FACTS = {"isAbsent": "IsAbsent", "isDone": "IsDone", "isEnded": "IsEnded", "isRef": "IsRef", "is_refused": "IsRefused"}
FACT_FILES = ("meaning/specs/Laws/State.antt", "meaning/specs/Laws/Running.antt", "meaning/specs/Laws/Block.antt")

# Lemmas that port.py spelled as a definition of another file is spelled now, and where they stand.
LEMMAS = {
    "add_row": ("borrow_graph_edit/specs/Edits.antt",),
    "flag_at": ("meaning/specs/Laws/Decode.antt",),
    "has_block": ("meaning/specs/Laws/Area.antt", "absint_area/proofs/load/Proof.antt", "absint_area/proofs/store/Proof.antt"),
    "in_order": ("meaning/specs/Laws/Listing.antt", "meaning/specs/Laws/Order.antt"),
    "in_use": ("listing_records/proofs/KindLaws.antt", "listing_records/proofs/shapes/in_use/Proof.antt"),
    "lowest_by": ("absint/specs/WholeLaws.antt", "meaning/specs/Laws/Fit.antt"),
    "one_by_one": ("meaning/specs/Theorems.antt",),
    "own_name": ("meaning/specs/Laws/Rename.antt",),
    "same_names": ("meaning/specs/Laws/InTurn.antt",),
    "too_long": ("listing_records/proofs/Laws.antt", "listing_records/proofs/read_places/Proof.antt"),
}


def texts(top):
    for folder, dirs, files in os.walk(os.path.join(top, "crates")):
        dirs[:] = sorted(d for d in dirs if d not in ("out", "must-fail"))
        for f in sorted(files):
            if f.endswith((".antt", ".rt")):
                yield os.path.join(folder, f)


def snake(name):
    """The name in snake case; a type's or a fact's keeps its capital."""
    if not PLAIN.match(name):
        return name
    if name[0].isupper():
        return name.replace("-", "_")
    name = name.replace("getD", "get_or")
    name = re.sub(r"([a-z0-9])([A-Z])", lambda m: m.group(1) + "_" + m.group(2), name)
    return name.replace("-", "_").lower()


def declared(path):
    """Each name that a file declares, and what follows its colon."""
    with open(path, encoding="utf-8") as f:
        for line in f:
            m = SIGNATURE.match(line) or MEMBER.match(line)
            if m and not line.startswith("use "):
                for name in m.group(1).split():
                    yield name, m.group(2)


def foreign(path, crates):
    """The names that a file imports from elsewhere than this repository."""
    names = set()
    with open(path, encoding="utf-8") as f:
        for line in f:
            m = IMPORT.match(line)
            if m and not (m.group(1).startswith("Rattle.") and m.group(1).split(".")[1] in crates):
                names |= {n for item in m.group(2).split(",") for n in item.split()}
    return names


def is_answer(name, kind):
    return "tie." in kind or kind.startswith("goal.") or "statement M" in kind or name.startswith(("invariant-", "decreases-"))


def find(top):
    """The names that change everywhere, and those that change in one file of proofs alone."""
    shared, alone = set(), collections.defaultdict(set)
    for path in texts(top):
        if not path.endswith(".antt"):
            continue
        for name, kind in declared(path):
            if path.endswith("/Proof.antt"):
                if not is_answer(name, kind):
                    alone[path].add(name)
            else:
                shared.add(name)
    fresh = collections.defaultdict(set)
    for name in shared:
        fresh[snake(name)].add(name)
    names = {}
    for new, olds in fresh.items():
        definitions = [n for n in olds if "-" not in n]
        for old in olds:
            lemma = "-" in old and definitions and old != new
            if old != new:
                names[old] = new + "_lem" if lemma else new
    return names, {p: {n: snake(n) for n in ns if snake(n) != n and n not in names} for p, ns in alone.items()}


def respell(line, names, comment, walk):
    """The line with its names in the new spelling. In a comment a word with a dash is a name only between backticks. In a walk no lemma is
    named behind a dot: what stands there is a step of the function's proof."""

    def word(w):
        new = names.get(w.group(), w.group())
        return snake(w.group()) if walk and new.endswith("_lem") and w.start() and w.string[w.start() - 1] == "." else new

    cut = len(line)
    m = re.search(r"(^|\s)" + re.escape(comment) + r"(\s|$)", line)
    if m:
        cut = m.start()
    head = WORD.sub(word, line[:cut])
    parts = line[cut:].split("`")
    for i, part in enumerate(parts):
        parts[i] = WORD.sub(lambda w: word(w) if i % 2 or "-" not in w.group() and re.search("[a-z][A-Z]", w.group()) else w.group(), part)
    return head + "`".join(parts)


def main(argv):
    top = os.path.join(os.path.dirname(os.path.realpath(__file__)), "..")
    if len(argv) > 1 or argv not in ([], ["--map"]):
        print(__doc__, file=sys.stderr)
        return 2
    crates = set(os.listdir(os.path.join(top, "crates")))
    names, alone = find(top)
    if argv:
        for old in sorted(names):
            print(old, names[old])
        return 0
    for path in texts(top):
        inside = os.path.relpath(path, os.path.join(top, "crates"))
        here = names | alone.get(path, {})
        for lemma, files in LEMMAS.items():
            if inside in files:
                here[lemma] = lemma + "_lem"
        if inside in FACT_FILES:
            here |= FACTS
        others = foreign(path, crates)
        with open(path, encoding="utf-8") as f:
            old = f.read()
        if path.endswith(".antt"):
            # parameters and local names
            here = {w: snake(w) for w in WORD.findall(old) if CAMEL.match(w)} | here
        here = {n: new for n, new in here.items() if n not in others}
        new = "\n".join(respell(line, here, "--" if path.endswith(".antt") else "//", path.endswith("/Proof.antt")) for line in old.split("\n"))
        if new != old:
            with open(path, "w", encoding="utf-8") as f:
                f.write(new)
    return 0


if __name__ == "__main__":
    raise SystemExit(main(sys.argv[1:]))
