#!/usr/bin/env python3
"""Writes the cases of crates/cases_steps: `stdin` (each case as three bytes of length and its listing) and `stdout` (the answers of its first block).

Each routine has one block, or where names are to be changed a second one that only returns. With the path of the oracle's `answer` the
answers are held against the Rust's verdict.
"""
from case_files import must_agree, oracle, write
from records import (EQ, FREEZE, LOAD, MOVE_TO, MUT, POP, READ, REF, RET, VALUE, WRITE, block, call, copy, element, field, function, local, move,
                     move_from, resource, store, values, vector)


def routine(params, locals_, returns, code, successor=False):
    n = len(code)
    blocks, code = block(0, n - 1), b"".join(code)
    if successor:
        blocks, code = block(0, n - 1, n) + block(n, n), code + RET
    return function(params, locals_, returns) + blocks + code


def cases():
    """parameters, locals, returns, code; a violation or refusal with its offset, or 0 for an end; whether it has a successor"""
    # 10
    yield [], 0, 0, [POP], (10, 0)
    yield [VALUE], 1, 0, [LOAD, POP, POP], (10, 2)
    yield [], 0, 0, [LOAD, POP], 0
    yield [REF], 1, 0, [move(0), POP], 0
    # 11
    yield [VALUE], 1, 0, [local(0, 1), copy(0)], (101, 1)
    yield [VALUE], 1, 0, [local(0, 0), copy(0), POP, POP], 0
    yield [MUT], 1, 0, [copy(0), POP], 0
    yield [], 1, 0, [copy(0)], (12, 0)
    yield [VALUE], 1, 0, [values(0, 16), copy(0)], (20, 1)
    yield [MUT], 2, 0, [values(0, 16), copy(0)], (20, 1)
    # 12
    yield [VALUE], 1, 0, [local(0, 0), move(0)], (102, 1)
    yield [VALUE], 1, 0, [move(0), move(0)], (12, 1)
    yield [VALUE], 1, 0, [values(0, 16), move(0)], (20, 1)
    yield [MUT], 1, 0, [move(0), POP, copy(0)], (12, 2)
    # 13
    yield [VALUE], 1, 0, [local(0, 0), LOAD, store(0)], (103, 2)
    yield [MUT, MUT], 2, 0, [move(0), store(1), copy(0)], (12, 2)
    yield [], 1, 0, [store(0)], (10, 0)
    yield [], 1, 0, [LOAD, store(0), copy(0), POP], 0
    # 14
    yield [MUT], 1, 0, [copy(0), move(0), FREEZE], (104, 2)
    yield [REF], 1, 0, [move(0), FREEZE], (13, 1)
    yield [], 0, 0, [LOAD, FREEZE], (11, 1)
    yield [], 0, 0, [FREEZE], (10, 0)
    yield [MUT], 1, 0, [move(0), FREEZE, READ, POP], 0
    # 15: the top first, then the other
    yield [MUT], 1, 0, [copy(0), copy(0), EQ], (105, 2)
    yield [REF], 1, 0, [copy(0), copy(0), EQ, POP], 0
    yield [REF], 1, 0, [LOAD, move(0), EQ], (11, 2)
    yield [REF], 1, 0, [move(0), LOAD, EQ], (11, 2)
    yield [], 0, 0, [LOAD, EQ], (10, 1)
    yield [], 0, 0, [LOAD, LOAD, EQ, POP], 0
    # 16
    yield [MUT], 1, 0, [copy(0), move(0), READ], (105, 2)
    yield [], 0, 0, [LOAD, READ], (11, 1)
    yield [], 0, 0, [READ], (10, 0)
    yield [MUT], 1, 0, [move(0), READ, POP], 0
    # 17: 13 before 106, both after what is taken
    yield [MUT], 2, 0, [copy(0), store(1), LOAD, move(0), WRITE], (106, 4)
    yield [REF], 1, 0, [LOAD, move(0), WRITE], (13, 2)
    yield [REF], 1, 0, [move(0), WRITE], (10, 1)
    yield [REF], 2, 0, [copy(0), store(1), LOAD, move(0), WRITE], (13, 4)
    yield [MUT], 1, 0, [copy(0), move(0), WRITE], (11, 2)
    yield [], 0, 0, [LOAD, WRITE], (11, 1)
    yield [MUT], 1, 0, [LOAD, move(0), WRITE], 0
    # 18
    yield [VALUE], 1, 0, [local(0, 1), local(0, 0)], (107, 1)
    yield [], 1, 0, [local(0, 1), local(0, 1), POP, POP], 0
    yield [], 1, 0, [values(0, 16), local(0, 1)], (20, 1)
    # 19
    yield [MUT], 1, 0, [copy(0), move(0), field(5, 1)], (108, 2)
    yield [MUT], 1, 0, [copy(0), field(5, 1), move(0), field(5, 0)], (108, 3)
    yield [MUT], 1, 0, [copy(0), field(5, 1), move(0), field(6, 0), POP, POP], 0
    yield [REF], 1, 0, [move(0), field(5, 1), POP], 0
    yield [], 0, 0, [LOAD, field(1, 0)], (11, 1)
    yield [], 0, 0, [field(1, 0)], (10, 0)
    yield [MUT], 1, 0, [move(0)] + [field(n, 1) for n in range(9)] + [POP], 0
    yield [MUT], 1, 0, [copy(0)] + [field(n, 1) for n in range(9)], (22, 9)
    # 20
    yield [], 0, 0, [LOAD, resource(3, 1), LOAD, resource(3, 0)], (109, 3)
    yield [], 0, 0, [LOAD, resource(3, 0), LOAD, resource(3, 1)], (109, 3)
    yield [], 0, 0, [LOAD, resource(3, 0), LOAD, resource(3, 0), POP, POP], 0
    yield [REF], 1, 0, [move(0), resource(3, 0)], (11, 1)
    yield [], 0, 0, [resource(3, 0)], (10, 0)
    # 21
    yield [], 0, 0, [LOAD, resource(3, 0), LOAD, move_from(3)], (109, 3)
    yield [], 0, 0, [LOAD, resource(3, 0), LOAD, move_from(4), POP, POP], 0
    yield [REF], 1, 0, [move(0), move_from(3)], (11, 1)
    yield [], 0, 0, [move_from(3)], (10, 0)
    # 22: acquired before the arguments
    yield [], 0, 0, [LOAD, resource(3, 0), call(0, [5, 3], [])], (109, 2)
    yield [MUT], 2, 0, [copy(0), store(1), move(0), call(1, [], [])], (112, 3)
    yield [MUT], 2, 0, [LOAD, resource(3, 0), copy(0), store(1), move(0), call(1, [3], [])], (109, 5)
    yield [MUT], 1, 0, [move(0), call(1, [], [MUT, REF, VALUE]), POP, POP, POP], 0
    yield [MUT], 1, 0, [move(0), call(1, [], [MUT]), LOAD, EQ], (11, 3)
    yield [], 0, 0, [LOAD, call(2, [], [])], (10, 1)
    yield [], 0, 0, [values(0, 16), call(2, [], [VALUE] * 3)], (20, 1)
    yield [MUT] * 12, 12, 0, [move(i) for i in range(12)] + [call(12, [], [MUT] * 8)], (14, 12)
    yield [MUT] * 13, 13, 0, [move(i) for i in range(13)] + [call(13, [], [MUT] * 8)], (21, 13)
    # 23: the releases before the frame's test
    yield [VALUE], 1, 1, [local(0, 0), RET], (113, 1)
    yield [VALUE], 2, 0, [local(0, 0), store(1), RET], 0
    yield [MUT], 1, 2, [copy(0), move(0), RET], (114, 2)
    yield [MUT], 1, 1, [move(0), RET], 0
    yield [], 0, 1, [RET], (10, 0)
    yield [], 0, 1, [LOAD, LOAD, RET], (14, 2)
    # 24
    yield [], 0, 0, [values(0, 17)], (20, 0)
    yield [], 0, 0, [values(0, 65535)], (20, 0)
    yield [], 0, 0, [values(0, 17, REF)], (20, 0)
    yield [], 0, 0, [values(0, 65535, MUT)], (20, 0)
    yield [], 0, 0, [values(65535, 0)], (10, 0)
    yield [], 0, 0, [values(0, 16), values(65535, 65535)], (10, 1)
    yield [REF], 1, 0, [LOAD, move(0), values(2, 0)], (11, 2)
    yield [REF], 1, 0, [move(0), LOAD, values(2, 0)], (11, 2)
    yield [], 0, 0, [values(0, 3), values(3, 2, MUT), POP, POP], 0
    # 25
    yield [REF], 1, 0, [LOAD, move(0), MOVE_TO], (11, 2)
    yield [REF], 1, 0, [move(0), LOAD, MOVE_TO], 0
    yield [], 0, 0, [LOAD, MOVE_TO], (10, 1)
    # 26: 13 before 110
    yield [MUT], 2, 0, [copy(0), store(1), move(0), vector(0, 1, 0)], (110, 3)
    yield [REF], 2, 0, [copy(0), store(1), move(0), vector(0, 1, 0)], (13, 3)
    yield [MUT], 2, 0, [copy(0), store(1), move(0), vector(0, 0, 1), POP], 0
    yield [REF], 1, 0, [move(0), vector(1, 0, 0)], (11, 1)
    yield [], 0, 0, [LOAD, LOAD, vector(1, 0, 0)], (11, 2)
    yield [], 0, 0, [LOAD, LOAD, vector(2, 0, 0)], (10, 2)
    yield [MUT], 1, 0, [move(0), LOAD, LOAD, vector(2, 1, 1, REF), POP], 0
    # 27: 13 before 111
    yield [MUT], 2, 0, [copy(0), store(1), move(0), LOAD, element(1)], (111, 4)
    yield [REF], 2, 0, [copy(0), store(1), move(0), LOAD, element(1)], (13, 4)
    yield [MUT], 2, 0, [copy(0), store(1), move(0), LOAD, element(0), POP], 0
    yield [REF], 1, 0, [LOAD, move(0), element(0)], (11, 2)
    yield [], 0, 0, [LOAD, LOAD, element(0)], (11, 2)
    yield [], 0, 0, [LOAD, element(0)], (10, 1)
    # the end of a block: 14, or names changed, also those of references that were exchanged
    yield [], 0, 0, [LOAD], (14, 0)
    yield [MUT, MUT], 2, 0, [move(0), move(1), store(0), store(1)], 0, True
    yield [MUT, MUT], 2, 0, [LOAD, move(0), move(1), store(0), store(1)], (14, 4), True
    yield [MUT, MUT], 2, 0, [move(0), move(1), store(0), store(1)], 0
    yield [MUT], 2, 0, [move(0), store(1)], 0, True


def agreed(answer):
    for case in cases():
        listing = routine(*case[:4], *case[5:])
        code, place = case[4] or (0, 0)
        if answer:
            must_agree(answer, listing, code, place)
        yield listing, f"{code:03} {place:05}"


write("cases_steps", agreed(oracle(__doc__)))
