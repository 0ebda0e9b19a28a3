"""Arithmetic of whole numbers, by docs/program.md and the rules of 32 and 64 bits: the edges of each operation, worked out
by hand. A number is the signed one of its bits.
"""

INT_MIN, INT_MAX = -2**31, 2**31 - 1
LONG_MIN, LONG_MAX = -2**63, 2**63 - 1

INTS = [
    ('a sum leaves the range', 'add', -1, 2, 1),
    ('the largest sum', 'add', INT_MAX, 1, INT_MIN),
    ('a difference below 0', 'sub', 0, 1, -1),
    ('a difference leaves the range', 'sub', INT_MIN, 1, INT_MAX),
    ('the second less the first', 'rsub', 1, 0, -1),
    ('the second less the first', 'rsub', 7, 5, -2),
    ('a product leaves the range', 'mul', 0x10000, 0x10000, 0),
    ('a product of a negative number', 'mul', -3, 5, -15),
    ('a quotient is cut toward 0', 'div', 7, -2, -3),
    ('a quotient is cut toward 0', 'div', -7, 2, -3),
    ('the quotient that leaves the range', 'div', INT_MIN, -1, INT_MIN),
    ('no quotient by 0', 'div', 1, 0, None),
    ('a remainder has the sign of the first', 'rem', -7, 2, -1),
    ('a remainder has the sign of the first', 'rem', 7, -2, 1),
    ('the remainder of the quotient that leaves the range', 'rem', INT_MIN, -1, 0),
    ('no remainder by 0', 'rem', 1, 0, None),
    ('common bits', 'and', 0xFF00, 0x0FF0, 0x0F00),
    ('bits of either', 'or', 0xFF00, 0x0FF0, 0xFFF0),
    ('bits of one', 'xor', 0xFF00, 0x0FF0, 0xF0F0),
    ('all bits but those', 'xor', 5, -1, -6),
    ('a distance of 33 is 1', 'shl', 1, 33, 2),
    ('bits are shifted out', 'shl', 3, 31, INT_MIN),
    ('the sign is shifted in', 'shr', INT_MIN, 31, -1),
    ('the sign is shifted in, and 33 is 1', 'shr', INT_MIN, 33, -2**30),
    ('zeros are shifted in', 'ushr', INT_MIN, 31, 1),
    ('a distance of -1 is 31', 'ushr', INT_MIN, -1, 1),
]

LONGS = [
    ('a sum leaves the range', 'add', -1, 2, 1),
    ('the largest sum', 'add', LONG_MAX, 1, LONG_MIN),
    ('a difference below 0', 'sub', 0, 1, -1),
    ('the second less the first', 'rsub', 1, 0, -1),
    ('a product leaves the range', 'mul', 2**32, 2**32, 0),
    ('a product above 32 bits', 'mul', 2**31, -6, -6 * 2**31),
    ('the quotient that leaves the range', 'div', LONG_MIN, -1, LONG_MIN),
    ('a quotient is cut toward 0', 'div', 7, -2, -3),
    ('no quotient by 0', 'div', 1, 0, None),
    ('the remainder of the quotient that leaves the range', 'rem', LONG_MIN, -1, 0),
    ('a remainder has the sign of the first', 'rem', -7, 2, -1),
    ('no remainder by 0', 'rem', 1, 0, None),
    ('common bits', 'and', 0xFF00, 0x0FF0, 0x0F00),
    ('bits of either', 'or', 0xFF00, 0x0FF0, 0xFFF0),
    ('bits of one', 'xor', 0xFF00, 0x0FF0, 0xF0F0),
    ('a distance of 65 is 1', 'shl', 1, 65, 2),
    ('a distance of 33 is 33', 'shl', 1, 33, 2**33),
    ('the sign is shifted in', 'shr', LONG_MIN, 63, -1),
    ('zeros are shifted in', 'ushr', LONG_MIN, 63, 1),
    ('zeros are shifted in, and 65 is 1', 'ushr', LONG_MIN, 65, 2**62),
]

ONES = [
    ('an answer has 32 bits', 'neg-int', 1, 0xFFFFFFFF),
    ('the least int is its own negative', 'neg-int', 0x80000000, 0x80000000),
    ('0 is its own negative', 'neg-int', 0, 0),
    ('an answer has 32 bits', 'not-int', 0, 0xFFFFFFFF),
    ('no more than the low 32 bits are read', 'not-int', 0x100000000, 0xFFFFFFFF),
    ('a long has 64 bits', 'neg-long', 1, -1),
    ('the least long is its own negative', 'neg-long', LONG_MIN, LONG_MIN),
    ('a long has 64 bits', 'not-long', 0, -1),
    ('the sign fills the upper half', 'int-to-long', 0xFFFFFFFF, -1),
    ('the sign fills the upper half', 'int-to-long', 0x7FFFFFFF, 0x7FFFFFFF),
    ('the upper half goes', 'long-to-int', 0x1FFFFFFFF, 0xFFFFFFFF),
    ('the sign of a byte fills the int', 'int-to-byte', 0x180, 0xFFFFFF80),
    ('the sign of a byte fills the int', 'int-to-byte', 0x17F, 0x7F),
    ('a char has no sign', 'int-to-char', 0xFFFF8000, 0x8000),
    ('the sign of a short fills the int', 'int-to-short', 0x18000, 0xFFFF8000),
    ('the sign of a short fills the int', 'int-to-short', 0x7FFF, 0x7FFF),
]

ORDERS = [
    ('below', -1, 0, -1),
    ('equal', 5, 5, 0),
    ('above', 0, -1, 1),
    ('the least and the largest', LONG_MIN, LONG_MAX, -1),
    ('numbers that differ in the upper half alone', 2**33, 2**32, 1),
]


def tell(out, shows, verb, operands, result):
    out.note(shows)
    row = ' '.join([verb] + [str(x) for x in operands])
    out.under(row)
    out.row(row)
    out.want('%s: %s' % (row, 'none' if result is None else result))


def rows(out):
    for shows, op, a, b, result in INTS:
        tell(out, shows, 'int', (op, a, b), result)
    for shows, op, a, b, result in LONGS:
        tell(out, shows, 'long', (op, a, b), result)
    for shows, op, a, result in ONES:
        tell(out, shows, 'one', (op, a), result)
    for shows, a, b, result in ORDERS:
        tell(out, shows, 'compare', (a, b), result)
