#!/usr/bin/env python3
"""Writes the cases of crates/cases_listing: `stdin` (each case as three bytes of length and its bytes) and `stdout` (the answers).

The answers are stated beside the cases, and a reader written from document 01 must agree with each of them.
"""
import sys

from case_files import write

SHAPES = {1: "F r", 2: "w w s", 10: "", 11: "l", 12: "l", 13: "l", 14: "", 15: "", 16: "", 17: "", 18: "l m", 19: "w m", 20: "w m",
          21: "w", 22: "p a r", 23: "", 24: "w w t", 25: "", 26: "2 m 1 t", 27: "m"}


def body_fault(shape, b, locals_):
    """3, 6 or 0"""
    over, i = False, 0

    def byte():
        nonlocal i
        if i >= len(b):
            raise ValueError
        i += 1
        return b[i - 1]

    def tokens(n):
        if any(byte() > 2 for _ in range(n)):
            raise ValueError

    try:
        for f in shape.split():
            if f in "2t1mp":
                x = byte()
                if x > {"2": 2, "t": 2, "1": 1, "m": 1, "p": 255}[f]:
                    raise ValueError
                over |= f == "p" and x > 16
            elif f == "l":
                if byte() >= locals_:
                    raise ValueError
            elif f == "w":
                byte(), byte()
            elif f in "sa":
                n = byte()
                if f == "s" and n > 2:
                    raise ValueError
                over |= n > 16
                for _ in range(2 * n):
                    byte()
            elif f == "r":
                n = byte()
                over |= n > 8
                tokens(n)
            elif f == "F":
                p, n = byte(), byte()
                if p > n:
                    raise ValueError
                over |= n > 16
                tokens(p)
    except ValueError:
        return 3
    return 3 if i != len(b) else 6 if over else 0


def read(s):
    """(number, place), (0, how many instructions), or None for an empty cell"""
    word = lambda b, i: b[i] + 256 * b[i + 1]
    if len(s) > 65536:
        return 6, 65536
    if not s:
        return None
    at, locals_, code, blocks = 0, 0, [], []
    while at < len(s):
        if len(s) - at < 4 or len(s) - at - 4 < word(s, at):
            return 1, at
        kind, b = word(s, at + 2), s[at + 4:at + 4 + word(s, at)]
        if kind not in SHAPES:
            return 2, at
        if (kind == 1) != (at == 0):
            return 4, at
        if kind == 2 and code:
            return 33, at
        fault = body_fault(SHAPES[kind], b, locals_)
        if fault:
            return fault, at
        if kind == 1:
            locals_ = b[1]
        elif kind == 2:
            if len(blocks) == 16:
                return 6, at
            blocks.append((at, word(b, 0), word(b, 2), [word(b, 5 + 2 * k) for k in range(b[4])]))
        else:
            if len(code) == 512:
                return 6, at
            code.append((at, kind))
        at += 4 + len(b)
    if not blocks:
        return 5, len(s)
    entries = [b[1] for b in blocks]
    for i, (at, entry, exit_, succ) in enumerate(blocks):
        if (i == 0 and entry != 0) or entry > exit_ or exit_ >= len(code):
            return 5, at
        if any(entry <= e[2] and e[1] <= exit_ for e in blocks[:i]) or len(set(succ)) < len(succ):
            return 5, at
        if any(e not in entries or (e > entry and e not in entries[i + 1:]) for e in succ):
            return 5, at
    for k, (at, kind) in enumerate(code):
        if kind == 23 and not any(b[2] == k and not b[3] for b in blocks):
            return 5, at
    return 0, len(code)


def rec(kind, *body):
    return bytes([len(body) % 256, len(body) // 256, kind % 256, kind // 256, *body])


def w(n):
    return n % 256, n // 256


def head(locals_=1, params=(), returns=()):
    return rec(1, len(params), locals_, *params, len(returns), *returns)


def block(entry, exit_, *succ):
    return rec(2, *w(entry), *w(exit_), len(succ), *[x for s in succ for x in w(s)])


POP = rec(10)
RET = rec(23)
B0 = block(0, 0)
OK = head() + B0 + POP


def call(params=0, acquired=0, returns=0, token=0):
    return rec(22, params, acquired, *[7, 0] * acquired, returns, *[token] * returns)


def cases():
    full = {kind: None for kind in SHAPES}
    full.update({11: (0,), 12: (0,), 13: (0,), 18: (0, 1), 19: (*w(65535), 1), 20: (*w(0), 0), 21: w(9), 24: (*w(1), *w(1), 2), 26: (2, 1, 1, 2), 27: (1,)})
    plain = {k: v or () for k, v in full.items() if k not in (1, 2, 22)}
    # 6: length; an empty cell; 1: cut
    fill = head() + B0 + POP
    yield fill + bytes([*w(65536 - len(fill) - 4), 0, 0]) + bytes(65536 - len(fill) - 4), (2, 20)
    yield fill + bytes(65537 - len(fill)), (6, 65536)
    yield bytes(65537), (6, 65536)
    yield b"", None
    for n in range(1, len(OK)):
        place = 0 if n < 7 else 7 if n < 16 else 16
        yield OK[:n], (5, n) if n == 7 else (5, 7) if n == 16 else (1, place)
    yield head() + bytes([255, 255, 10, 0]) + bytes(65536 - 11), (1, 7)
    # 2: unknown kinds, on both sides of those in use, and as the last record
    for kind in (0, 3, 4, 5, 9, 28, 30, 31, 255, 256, 257, 258, 266, 65535):
        yield rec(kind), (2, 0)
        yield OK + rec(kind), (2, len(OK))
    # 4: the first record of another kind, or a second one of kind 1
    for kind in sorted(plain):
        yield rec(kind, *plain[kind]) + head(), (4, 0)
        yield rec(kind, 9, 9, 9, 9, 9, 9) + head(), (4, 0)
    yield B0, (4, 0)
    yield head() + head(), (4, 7)
    yield OK + rec(1), (4, len(OK))
    # 33: a block after an instruction, of each kind; after 1, 2 and 4, before 3 and 6
    yield OK + B0, (33, len(OK))
    yield head() + POP + B0, (33, 11)
    for kind in sorted(plain):
        one = rec(kind, *plain[kind])
        yield head() + one + B0, (33, 7 + len(one))
        yield head() + B0 + block(1, 1) + POP + one + B0 + POP, (33, 29 + len(one))
    yield head() + call(1, 1, 1) + B0, (33, 7 + len(call(1, 1, 1)))
    yield OK + B0[:8], (1, len(OK))
    yield OK + rec(258), (2, len(OK))
    yield OK + head() + B0, (4, len(OK))
    for body in ((), (0, 0, 0, 0), (0, 0, 0, 0, 0, 0), (0, 0, 0, 0, 3, 0, 0, 0, 0, 0, 0), (0, 0, 0, 0, 255)):
        yield OK + rec(2, *body), (33, len(OK))
    # 3: body length of each kind, one short and one long
    for kind in sorted(plain):
        yield head() + rec(kind, *plain[kind], 0), (3, 7)
        if plain[kind]:
            yield head() + rec(kind, *plain[kind][:-1]), (3, 7)
    for body in ((), (0,), (0, 1), (0, 1, 0, 0), (1, 1, 0), (1, 1, 0, 1), (0, 1, 1), (2, 2, 0, 0), (255, 255, 0)):
        yield rec(1, *body), (3, 0)
    for body in ((), (0, 0, 0, 0), (0, 0, 0, 0, 0, 0), (0, 0, 0, 0, 1), (0, 0, 0, 0, 1, 0), (0, 0, 0, 0, 2, 0, 0, 0), (0, 0, 0, 0, 3, 0, 0, 0, 0, 0, 0), (0, 0, 0, 0, 255)):
        yield head() + rec(2, *body), (3, 7)
    for body in ((), (0,), (0, 0), (0, 0, 0, 0), (0, 1, 0), (0, 1, 0, 0), (0, 0, 1), (0, 255, 0), (17, 17, 0), (0, 0, 9, 0)):
        yield head() + rec(22, *body), (3, 7)
    # 3: tokens, flags, ranges, locals, P > L
    yield rec(1, 1, 1, 3, 0), (3, 0)
    yield rec(1, 2, 2, 2, 255, 0), (3, 0)
    yield rec(1, 0, 1, 1, 3), (3, 0)
    yield rec(1, 0, 1, 9, *[0] * 8, 3), (3, 0)
    yield rec(1, 2, 1, 0, 0, 0), (3, 0)
    yield rec(1, 17, 16, *[0] * 17, 0), (3, 0)
    yield rec(1, 1, 0, 0, 0), (3, 0)
    for kind in (11, 12, 13):
        yield head(1) + rec(kind, 1), (3, 7)
        yield head(16) + rec(kind, 16), (3, 7)
        yield head(16) + block(0, 0) + rec(kind, 15), (0, 1)
        yield head(0) + rec(kind, 0), (3, 7)
    yield head(1) + rec(18, 1, 0), (3, 7)
    yield head(1) + rec(18, 0, 2), (3, 7)
    yield head(16) + B0 + rec(18, 15, 1), (0, 1)
    for kind in (19, 20):
        yield head() + rec(kind, 0, 0, 2), (3, 7)
        yield head() + rec(kind, 0, 0, 255), (3, 7)
    yield head() + rec(24, 0, 0, 0, 0, 3), (3, 7)
    yield head() + B0 + rec(24, 255, 255, 255, 255, 2), (0, 1)
    for body in ((3, 0, 0, 0), (0, 2, 0, 0), (0, 0, 2, 0), (0, 0, 0, 3), (255, 255, 255, 255)):
        yield head() + rec(26, *body), (3, 7)
    yield head() + rec(27, 2), (3, 7)
    yield head() + call(returns=1, token=3), (3, 7)
    yield head() + call(17, 17, 9, 3), (3, 7)
    yield head() + rec(22, 255, 1, 0, 0, 0, 0), (3, 7)
    # 6: limits, at them and one past
    yield head(16, [2] * 16, [1] * 8) + B0 + POP, (0, 1)
    yield head(17), (6, 0)
    yield head(17, [0] * 17), (6, 0)
    yield head(255, [0] * 255), (6, 0)
    yield head(0, (), [2] * 9), (6, 0)
    yield head(255, (), [0] * 255), (6, 0)
    yield head() + B0 + call(16, 16, 8, 2), (0, 1)
    yield head() + call(17), (6, 7)
    yield head() + call(0, 17), (6, 7)
    yield head() + call(0, 0, 9, 2), (6, 7)
    yield head() + call(255, 255, 255), (6, 7)
    yield head() + B0 + POP * 512, (0, 512)
    yield head() + B0 + POP * 513, (6, 16 + 4 * 512)
    yield head() + B0 + POP * 512 + rec(13, 1), (3, 16 + 4 * 512)
    sixteen = head() + b"".join(block(k, k) for k in range(16))
    yield sixteen + POP * 16, (0, 16)
    yield sixteen + block(16, 16) + POP * 17, (6, 7 + 9 * 16)
    yield sixteen + POP * 16 + block(16, 16) + POP, (33, 7 + 9 * 16 + 64)
    yield sixteen + block(0, 0), (6, 7 + 9 * 16)
    yield head() + B0 + POP * 512 + B0, (33, 16 + 4 * 512)
    # 5: no block; each rule on blocks, at the first block and at a later one
    yield head(), (5, 7)
    yield head() + POP * 3, (5, 19)
    yield head() + B0, (5, 7)
    yield head() + block(1, 1) + POP * 2, (5, 7)
    yield head() + block(0, 1) + POP, (5, 7)
    yield head() + block(0, 65535) + POP, (5, 7)
    yield head() + B0 + block(2, 1) + POP * 3, (5, 16)
    yield head() + B0 + block(1, 2) + POP * 2, (5, 16)
    yield head() + B0 + block(1, 1) + POP * 2, (0, 2)
    yield head() + block(0, 1) + block(1, 2) + POP * 3, (5, 16)
    yield head() + block(0, 3) + block(1, 2) + POP * 4, (5, 16)
    yield head() + block(0, 1) + block(3, 4) + block(0, 0) + POP * 5, (5, 25)
    yield head() + block(0, 1) + block(3, 4) + block(2, 3) + POP * 5, (5, 25)
    yield head() + block(0, 1) + block(3, 4) + block(2, 2) + POP * 5, (0, 5)
    yield head() + block(0, 0, 0, 0) + POP, (5, 7)
    yield head() + block(0, 0, 1, 1) + block(1, 1) + POP * 2, (5, 7)
    yield head() + block(0, 0, 0, 1) + block(1, 1, 1, 0) + POP * 2, (0, 2)
    yield head() + block(0, 1, 1) + POP * 2, (5, 7)
    yield head() + block(0, 0, 2) + block(1, 2) + POP * 3, (5, 7)
    yield head() + block(0, 0, 2) + block(2, 2, 1) + block(1, 1, 2) + POP * 3, (5, 29)
    yield head() + block(0, 0, 2) + block(2, 2, 1) + block(1, 1, 0, 2) + POP * 3, (5, 29)
    yield head() + block(0, 0, 2) + block(2, 2, 1, 0) + block(1, 1, 0, 1) + POP * 3, (0, 3)
    # 5: Ret
    yield head() + B0 + RET, (0, 1)
    yield head() + block(0, 0, 0) + RET, (5, 18)
    yield head() + block(0, 1) + RET + POP, (5, 16)
    yield head() + B0 + POP + RET, (5, 20)
    yield head() + B0 + RET + RET, (5, 20)
    yield head() + block(0, 1) + block(2, 3) + POP + RET + POP + RET, (0, 4)
    yield head() + block(0, 0) + block(1, 1) + POP + RET + POP + RET, (5, 33 + 4)
    # the order of the tests
    yield head() + block(5, 1) + rec(99) + POP[:2], (2, 16)
    yield head() + block(5, 1) + POP[:2], (1, 16)
    yield head() + rec(1, 9), (4, 7)
    yield head() + block(0, 1) + block(2, 1) + RET + POP, (5, 16)
    # each instruction, in one block
    yield head() + block(0, len(plain)) + b"".join(rec(k, *plain[k]) for k in sorted(plain) if k != 23) + call(1, 2, 1, 1) + RET, (0, len(plain) + 1)
    # the marked listing
    yield bytes.fromhex("0300010000010005000200000003000005001800000001000001000D0000020012000001 01000C0000".replace(" ", "")), (0, 4)


def agreed():
    for n, (s, answer) in enumerate(cases()):
        if read(s) != answer:
            sys.exit(f"case {n}: {s[:40].hex()} ({len(s)} bytes): stated {answer}, read {read(s)}")
        yield s, "{:02} {:05}".format(*answer) if answer else "EMPTY"


if sys.argv[1:]:
    sys.exit(__doc__)
write("cases_listing", agreed())
