"""Tables for measuring reader and compiler, written to standard output: tables.py NAME [BYTES], by default 16,384.

left, right   one assignment of 30 levels, the most there can be: along a spine of 22 operators, which goes down on the left or on the
              right, both sides of each need 3 registers (16,384 bytes only)
chains        assignments of 27 sums each, which go down on the left and store nothing (16,384 bytes only)
small         assignments of sums of four constants (at most 1,024 of them)
pars          PARs of 16 branches, nested 26 deep: 15 SKIPs and the next PAR, in SEQs
names         PARs of 16 SKIPs in SEQs, with 448 variables and 416 channels in scope
twos          26 PARs of two, one inside the other, around SEQs of assignments
twos_skips    the same around SEQs of SKIPs
branches      PARs of four assignments to four variables each, in SEQs
ones, none    PARs of one SKIP, PARs without branches, in SEQs
alts          ALTs of one SKIP guard, nested 26 deep around SEQs of assignments
alts_skips    the same around SEQs of SKIPs
skips, scopes SEQs of SKIPs, SEQs of VARs of 32 with a SKIP
guards        inputs from channel 11 into variable 32, whose last two bytes look like an ALT of 32 guards
"""

import sys

LEAF = [0, 1]
SKIP = [0]
LONG = [0, 255, 255, 255, 255, 15]


def plus(left, right):
    return [3, 0] + left + right


def balanced(levels):
    """A tree of sums: 2 ^ levels leaves."""
    return LEAF if levels == 0 else plus(balanced(levels - 1), balanced(levels - 1))


def chain(levels):
    return LEAF if levels == 0 else plus(chain(levels - 1), LEAF)


def trimmed(levels):
    """The same with one leaf fewer, which is four bytes."""
    return LEAF if levels == 1 else plus(balanced(levels - 1), trimmed(levels - 1))


def spine(join):
    rest = balanced(7)
    for side in [balanced(7)] * 13 + [trimmed(8)] + [balanced(8)] * 8:
        rest = join(rest, side)
    return rest


def assigned(expression, variable=0):
    return [2, variable] + expression


def parts(kind, statements):
    return [kind, len(statements)] + [b for s in statements for b in s]


def par(statements):
    return parts(8, statements)


def in_sequences(statements):
    """SEQs of 32, in as few levels as there can be."""
    while len(statements) > 1:
        statements = [parts(7, statements[i : i + 32]) for i in range(0, len(statements), 32)]
    return statements[0]


def repeated(statement, size):
    """So many of a statement in SEQs that they have at most size bytes."""
    count = max(1, size // len(statement))
    while len(in_sequences([statement] * count)) > size:
        count -= 1
    return in_sequences([statement] * count)


def nested(levels, around, statement):
    for _ in range(levels):
        statement = around(statement)
    return statement


def in_variable(statement):
    return [0, 0, 5, 1] + statement


def with_names(size):
    before = [0, 0] + [5, 32] * 14 + [6, 32] * 13
    return before + repeated(par([SKIP] * 16), size - len(before))


def in_pars(statement, size):
    return in_variable(nested(26, lambda s: par([s, SKIP]), repeated(statement, size - 82)))


def in_alts(statement, size):
    return in_variable(nested(26, lambda s: [11, 1, 1] + LEAF + s, repeated(statement, size - 134)))


def like_guards(size):
    before = [0, 0] + [5, 32] * 2 + [6, 32]
    return before + repeated([3, 11, 32], size - len(before))


TABLES = {
    "left": lambda size: in_variable(assigned(spine(lambda rest, side: plus(rest, side)))),
    "right": lambda size: in_variable(assigned(spine(lambda rest, side: plus(side, rest)))),
    "chains": lambda size: in_variable(in_sequences([assigned(chain(27))] * 143)),
    "small": lambda size: in_variable(repeated(assigned(balanced(2)), size - 4)),
    "pars": lambda size: [0, 0] + repeated(nested(26, lambda s: par([SKIP] * 15 + [s]), SKIP), size - 2),
    "names": with_names,
    "twos": lambda size: in_pars(assigned(plus(LONG, LONG)), size),
    "twos_skips": lambda size: in_pars(SKIP, size),
    "branches": lambda size: [0, 0, 5, 4] + repeated(par([assigned(LEAF, v) for v in range(4)]), size - 4),
    "ones": lambda size: [0, 0] + repeated(par([SKIP]), size - 2),
    "none": lambda size: [0, 0] + repeated(par([]), size - 2),
    "alts": lambda size: in_alts(assigned(plus(LONG, LONG)), size),
    "alts_skips": lambda size: in_alts(SKIP, size),
    "skips": lambda size: [0, 0] + repeated(SKIP, size - 2),
    "scopes": lambda size: [0, 0] + repeated([5, 32] + SKIP, size - 2),
    "guards": like_guards,
}

size = int(sys.argv[2]) if len(sys.argv) > 2 else 16384
table = bytes(TABLES[sys.argv[1]](size))
assert len(table) <= size
sys.stdout.buffer.write(table)
