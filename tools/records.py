"""The records of a listing, one function or constant to a kind. Where a number is a flag or a token, document 01 says what it means."""

VALUE, REF, MUT = 0, 1, 2


def word(n):
    return n % 256, n // 256


def rec(kind, *body):
    return bytes([*word(len(body)), *word(kind), *body])


def function(params, locals_, returns):
    """`returns`: how many; their tokens are not used in a run."""
    return rec(1, len(params), locals_, *params, returns, *[VALUE] * returns)


def block(entry, exit_, *successors):
    return rec(2, *word(entry), *word(exit_), len(successors), *(b for n in successors for b in word(n)))


POP, FREEZE, EQ, READ, WRITE, RET, MOVE_TO = (rec(k) for k in (10, 14, 15, 16, 17, 23, 25))


def copy(i):
    return rec(11, i)


def move(i):
    return rec(12, i)


def store(i):
    return rec(13, i)


def local(i, m):
    return rec(18, i, m)


def field(n, m):
    return rec(19, *word(n), m)


def resource(n, m):
    return rec(20, *word(n), m)


def move_from(n):
    return rec(21, *word(n))


def call(params, acquired, returns):
    return rec(22, params, len(acquired), *(b for n in acquired for b in word(n)), len(returns), *returns)


def values(takes, pushes, token=VALUE):
    return rec(24, *word(takes), *word(pushes), token)


def vector(takes, m, pushes, token=VALUE):
    return rec(26, takes, m, pushes, token)


def element(m):
    return rec(27, m)


LOAD, NOP = values(0, 1), values(0, 0)
