#!/usr/bin/env python3
"""Listings as text, one record to a line.

    tools/listing.py show FILE.listing...   print each listing's lines
    tools/listing.py make FILE.txt...       write FILE.listing from the lines of the text
    tools/listing.py check FILE.txt...      whether the lines of each text are those of its listing

A text's lines are those that start with four spaces; what follows a ';' is a remark. An instruction starts with its offset:

    function: parameters 2 x mutable reference, value; locals 3; returns none
    block 0 to 2: then 0, 3
    0  CopyLoc 0            ; a second reference to the taught position

What is no record of a known shape is shown by its bytes: 'record 40: 01 02' (a kind, and a body in hex), and 'bytes: 03 00 01' for a
record that is cut short.
"""
import re
import sys
from itertools import groupby
from pathlib import Path

TOKENS = ["value", "reference", "mutable reference"]
PLAIN = {10: "Pop", 14: "FreezeRef", 15: "Eq", 16: "ReadRef", 17: "WriteRef", 23: "Ret", 25: "MoveTo"}
LOCAL = {11: "CopyLoc", 12: "MoveLoc", 13: "StLoc"}
BORROW = {18: "BorrowLoc", 19: "BorrowField", 20: "BorrowGlobal", 27: "BorrowElement"}
MUTABLE = ["Imm", "Mut"]


def word(n):
    return [n % 256, n // 256]


def record(kind, body):
    return bytes(word(len(body)) + word(kind) + list(body))


# ---- from bytes to lines


class Body:
    """A record's body, read from its start; IndexError where it has not the shape."""

    def __init__(self, data):
        self.data, self.at = data, 0

    def byte(self, below=256):
        self.at += 1
        n = self.data[self.at - 1]
        if n >= below:
            raise IndexError
        return n

    def word(self):
        return self.byte() + 256 * self.byte()

    def tokens(self, n):
        runs = [(t, len(list(same))) for t, same in groupby([TOKENS[self.byte(3)] for _ in range(n)])]
        return ", ".join(t if k == 1 else f"{k} x {t}" for t, k in runs) or "none"


def line_of(kind, body):
    b = Body(body)
    if kind == 1:
        p, locals_ = b.byte(), b.byte()
        line = f"function: parameters {b.tokens(p)}; locals {locals_}; returns {b.tokens(b.byte())}"
    elif kind == 2:
        line = f"block {b.word()} to {b.word()}"
        line += ": then " + (", ".join(str(b.word()) for _ in range(b.byte())) or "end")
    elif kind in PLAIN:
        line = PLAIN[kind]
    elif kind in LOCAL:
        line = f"{LOCAL[kind]} {b.byte()}"
    elif kind == 18:
        n = b.byte()
        line = f"{MUTABLE[b.byte(2)]}{BORROW[kind]} {n}"
    elif kind in (19, 20):
        n = b.word()
        line = f"{MUTABLE[b.byte(2)]}{BORROW[kind]} {n}"
    elif kind == 27:
        line = f"{MUTABLE[b.byte(2)]}{BORROW[kind]}"
    elif kind == 21:
        line = f"MoveFrom {b.word()}"
    elif kind == 22:
        p = b.byte()
        acquired = ", ".join(str(b.word()) for _ in range(b.byte())) or "none"
        line = f"Call: parameters {p}; acquires {acquired}; returns {b.tokens(b.byte())}"
    elif kind == 24:
        line = f"Take {b.word()}, push {b.word()} {TOKENS[b.byte(3)]}"
    elif kind == 26:
        takes, m = b.byte(), b.byte(2)
        line = f"{MUTABLE[m]}Vector: take {takes}, push {b.byte()} {TOKENS[b.byte(3)]}"
    else:
        raise IndexError
    if b.at != len(body):
        raise IndexError
    return line


def show(data):
    at, offset, lines = 0, 0, []
    while at < len(data):
        size = int.from_bytes(data[at : at + 2], "little")
        if len(data) - at < 4 + size:
            lines.append("bytes: " + data[at:].hex(" "))
            break
        kind, body = int.from_bytes(data[at + 2 : at + 4], "little"), data[at + 4 : at + 4 + size]
        try:
            line = line_of(kind, body)
        except IndexError:
            line = f"record {kind}: {body.hex(' ')}".rstrip()
        if not re.match("function|block|record", line):
            line = f"{offset}  {line}"
            offset += 1
        lines.append(line)
        at += 4 + size
    return lines


# ---- from lines to bytes


def tokens(text):
    runs = [] if text == "none" else [re.fullmatch(r"(?:(\d+) x )?(.*)", run).groups() for run in text.split(", ")]
    return [TOKENS.index(t) for k, t in runs for _ in range(int(k or 1))]


def numbers(text):
    return [] if text in ("none", "end") else [int(n) for n in text.split(", ")]


def words(text):
    return [b for n in numbers(text) for b in word(n)]


FORMS = [
    (r"function: parameters (.*); locals (\d+); returns (.*)",
     lambda p, n, r: record(1, [len(tokens(p)), int(n), *tokens(p), len(tokens(r)), *tokens(r)])),
    (r"block (\d+) to (\d+): then (.*)", lambda e, x, s: record(2, [*word(int(e)), *word(int(x)), len(numbers(s)), *words(s)])),
    (r"record (\d+):(.*)", lambda kind, body: record(int(kind), bytes.fromhex(body))),
    (r"bytes: (.*)", bytes.fromhex),
    (r"MoveFrom (\d+)", lambda n: record(21, words(n))),
    (r"Call: parameters (\d+); acquires (.*); returns (.*)",
     lambda p, a, r: record(22, [int(p), len(numbers(a)), *words(a), len(tokens(r)), *tokens(r)])),
    (r"Take (\d+), push (\d+) (.*)", lambda t, p, k: record(24, [*words(t), *words(p), TOKENS.index(k)])),
    (r"(Imm|Mut)Vector: take (\d+), push (\d+) (.*)",
     lambda m, t, p, k: record(26, [int(t), MUTABLE.index(m), int(p), TOKENS.index(k)])),
    (r"(Imm|Mut)BorrowLoc (\d+)", lambda m, n: record(18, [int(n), MUTABLE.index(m)])),
    (r"(Imm|Mut)BorrowField (\d+)", lambda m, n: record(19, [*words(n), MUTABLE.index(m)])),
    (r"(Imm|Mut)BorrowGlobal (\d+)", lambda m, n: record(20, [*words(n), MUTABLE.index(m)])),
    (r"(Imm|Mut)BorrowElement", lambda m: record(27, [MUTABLE.index(m)])),
    *[(name, lambda kind=kind: record(kind, [])) for kind, name in PLAIN.items()],
    *[(name + r" (\d+)", lambda n, kind=kind: record(kind, [int(n)])) for kind, name in LOCAL.items()],
]


def make(lines):
    data = b""
    for line in lines:
        plain = re.sub(r"^\d+  ", "", line)
        found = [f(*m.groups()) for form, f in FORMS if (m := re.fullmatch(form, plain))]
        if len(found) != 1:
            raise ValueError(f"no such line: {line}")
        data += found[0]
    return data


def lines_of(text):
    """The lines without remarks. A ';' of a line's own has no space before it."""
    return [re.sub(r"\s+;.*", "", line[4:]).rstrip() for line in text.splitlines() if line.startswith("    ")]


def main():
    if len(sys.argv) < 3 or sys.argv[1] not in ("show", "make", "check"):
        sys.exit(__doc__)
    wrong = 0
    for name in map(Path, sys.argv[2:]):
        if sys.argv[1] == "show":
            print("\n".join(show(name.read_bytes())))
            continue
        lines, listing = lines_of(name.read_text()), name.with_suffix(".listing")
        try:
            data = make(lines)
        except ValueError as fault:
            sys.exit(f"{name}: {fault}")
        if show(data) != lines:
            # an offset that is not the line's, say
            told = next((pair for pair in zip(lines, show(data)) if pair[0] != pair[1]), "their number")
            sys.exit(f"{name}: a line is not as show writes it: {told}")
        if sys.argv[1] == "make":
            listing.write_bytes(data)
        elif not listing.exists() or listing.read_bytes() != data:
            print(f"{name}: its lines are not those of {listing.name}", file=sys.stderr)
            wrong = 1
    return wrong


sys.exit(main())
