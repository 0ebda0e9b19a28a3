"""Instructions and payloads in units, by docs/dex-format.md, "Instruction formats" and "Payloads".

INSTRUCTIONS has an instruction of each opcode: the high byte of its first unit, the units behind that, and what it says,
which is worked out by the layout of its format. Units are written with their high digits first.
"""

import hashlib

KINDS = ['Word', 'Wide', 'Ref']
CONDITIONS = ['Eq', 'Ne', 'Lt', 'Ge', 'Gt', 'Le']
ACCESS = ['Plain', 'Wide', 'Ref', 'Bool', 'Byte', 'Char', 'Short']
CALLS = ['Virtual', 'Super', 'Direct', 'Static', 'Interface']
OPERATIONS = ['Add', 'Sub', 'Mul', 'Div', 'Rem', 'And', 'Or', 'Xor', 'Shl', 'Shr', 'Ushr']
WITH_LITERAL = ['Add', 'Rsub', 'Mul', 'Div', 'Rem', 'And', 'Or', 'Xor', 'Shl', 'Shr', 'Ushr']
INT, LONG = 2**32, 2**64


def each(first, names, high, further, says):
    """Opcodes in a row that differ in a name alone."""
    return [(first + i, high, further, says % name) for i, name in enumerate(names)]


def few(n, *registers):
    return 'Few { n: %d, regs: [%s] }' % (n, ', '.join(str(r) for r in registers))


# 12x, 22x and 32x of each kind
MOVES = []
for i, kind in enumerate(KINDS):
    MOVES += [(1 + 3 * i, 0xBA, [], 'Move { kind: %s, a: 10, b: 11 }' % kind),
              (2 + 3 * i, 0xFE, [0xFEDC], 'Move { kind: %s, a: 254, b: 65244 }' % kind),
              (3 + 3 * i, 0x00, [0x0123, 0xFEDC], 'Move { kind: %s, a: 291, b: 65244 }' % kind)]

# 35c with 0, 1, 2, 4 and 5 registers
INVOKES = [
    (0x6E, 0x00, [0x0E0F, 0x0000], 'Invoke { how: Virtual, m: 3599, regs: %s }' % few(0, 0, 0, 0, 0, 0)),
    (0x6F, 0x10, [0x0E0F, 0x000D], 'Invoke { how: Super, m: 3599, regs: %s }' % few(1, 13, 0, 0, 0, 0)),
    (0x70, 0x20, [0x0E0F, 0x00ED], 'Invoke { how: Direct, m: 3599, regs: %s }' % few(2, 13, 14, 0, 0, 0)),
    (0x71, 0x40, [0x0E0F, 0xABCD], 'Invoke { how: Static, m: 3599, regs: %s }' % few(4, 13, 12, 11, 10, 0)),
    (0x72, 0x59, [0x0E0F, 0xABCD], 'Invoke { how: Interface, m: 3599, regs: %s }' % few(5, 13, 12, 11, 10, 9)),
]

INSTRUCTIONS = (
    [(0x00, 0, [], 'Nop')] + MOVES
    + each(0x0A, KINDS, 0xFD, [], 'MoveResult { k: %s, a: 253 }')
    + [(0x0D, 0x07, [], 'MoveException { a: 7 }'),
       (0x0E, 0x00, [], 'ReturnVoid')]
    + each(0x0F, KINDS, 0xFC, [], 'Return { k: %s, a: 252 }')
    + [(0x12, 0x81, [], 'Const { a: 1, v: %d }' % (INT - 8)),
       (0x13, 0xFF, [0x8000], 'Const { a: 255, v: %d }' % (INT - 32768)),
       (0x14, 0x02, [0x5678, 0x9234], 'Const { a: 2, v: %d }' % 0x92345678),
       (0x15, 0x03, [0x8001], 'Const { a: 3, v: %d }' % 0x80010000),
       (0x16, 0x04, [0xFFFE], 'ConstWide { a: 4, v: %d }' % (LONG - 2)),
       (0x17, 0x05, [0x0001, 0x8000], 'ConstWide { a: 5, v: %d }' % (LONG - 2**31 + 1)),
       (0x18, 0x06, [0x1122, 0x3344, 0x5566, 0xF788], 'ConstWide { a: 6, v: %d }' % 0xF788556633441122),
       (0x19, 0x07, [0x8001], 'ConstWide { a: 7, v: %d }' % (0x8001 << 48)),
       (0x1A, 0x01, [0xFFFF], 'ConstString { a: 1, s: 65535 }'),
       (0x1B, 0x02, [0x0001, 0x0002], 'ConstString { a: 2, s: 131073 }'),
       (0x1C, 0x03, [0x0005], 'ConstClass { a: 3, t: 5 }'),
       (0x1D, 0x04, [], 'Monitor { a: 4 }'),
       (0x1E, 0x05, [], 'Monitor { a: 5 }'),
       (0x1F, 0x06, [0x0006], 'CheckCast { a: 6, t: 6 }'),
       (0x20, 0x21, [0x0007], 'InstanceOf { a: 1, b: 2, t: 7 }'),
       (0x21, 0x43, [], 'ArrayLength { a: 3, b: 4 }'),
       (0x22, 0x07, [0x0008], 'NewInstance { a: 7, t: 8 }'),
       (0x23, 0x65, [0x0009], 'NewArray { a: 5, b: 6, t: 9 }'),
       (0x24, 0x51, [0x000A, 0x5432], 'Filled { t: 10, regs: %s }' % few(5, 2, 3, 4, 5, 1)),
       (0x25, 0xFF, [0x000B, 0x1234], 'Filled { t: 11, regs: Run { first: 4660, n: 255 } }'),
       (0x26, 0x08, [0xFFFE, 0xFFFF], 'FillArray { a: 8, dist: -2 }'),
       (0x27, 0x09, [], 'Throw { a: 9 }'),
       (0x28, 0x80, [], 'Goto { dist: -128 }'),
       (0x29, 0x00, [0x8000], 'Goto { dist: -32768 }'),
       (0x2A, 0x00, [0x0000, 0x8000], 'Goto { dist: -2147483648 }'),
       (0x2B, 0x0A, [0x0004, 0x0001], 'Switch { a: 10, dist: 65540 }'),
       (0x2C, 0x0B, [0xFFFF, 0xFFFF], 'Switch { a: 11, dist: -1 }'),
       (0x31, 0x01, [0x0302], 'CmpLong { a: 1, b: 2, c: 3 }')]
    + each(0x32, CONDITIONS, 0x21, [0xFFFD], 'If { cond: %s, a: 1, b: 2, dist: -3 }')
    + each(0x38, CONDITIONS, 0x21, [0x7FFF], 'IfZ { cond: %s, a: 33, dist: 32767 }')
    + each(0x44, ACCESS, 0x11, [0x3322], 'Aget { kind: %s, a: 17, b: 34, c: 51 }')
    + each(0x4B, ACCESS, 0x11, [0x3322], 'Aput { kind: %s, a: 17, b: 34, c: 51 }')
    + each(0x52, ACCESS, 0x21, [0x0C0D], 'Iget { kind: %s, a: 1, b: 2, f: 3085 }')
    + each(0x59, ACCESS, 0x21, [0x0C0D], 'Iput { kind: %s, a: 1, b: 2, f: 3085 }')
    + each(0x60, ACCESS, 0x21, [0x0C0D], 'Sget { kind: %s, a: 33, f: 3085 }')
    + each(0x67, ACCESS, 0x21, [0x0C0D], 'Sput { kind: %s, a: 33, f: 3085 }')
    + INVOKES
    + each(0x74, CALLS, 0x06, [0x0E0F, 0x0102], 'Invoke { how: %s, m: 3599, regs: Run { first: 258, n: 6 } }')
    + each(0x7B, ['NegInt', 'NotInt', 'NegLong', 'NotLong'], 0x21, [], 'Unary { op: %s, a: 1, b: 2 }')
    + each(0x81, ['IntToLong'], 0x21, [], 'Unary { op: %s, a: 1, b: 2 }')
    + each(0x84, ['LongToInt'], 0x21, [], 'Unary { op: %s, a: 1, b: 2 }')
    + each(0x8D, ['IntToByte', 'IntToChar', 'IntToShort'], 0x21, [], 'Unary { op: %s, a: 1, b: 2 }')
    + each(0x90, OPERATIONS, 0x04, [0x0605], 'Binary { op: Int(%s), a: 4, b: 5, c: 6 }')
    + each(0x9B, OPERATIONS, 0x04, [0x0605], 'Binary { op: Long(%s), a: 4, b: 5, c: 6 }')
    + each(0xB0, OPERATIONS, 0x87, [], 'Binary { op: Int(%s), a: 7, b: 7, c: 8 }')
    + each(0xBB, OPERATIONS, 0x87, [], 'Binary { op: Long(%s), a: 7, b: 7, c: 8 }')
    + each(0xD0, WITH_LITERAL[:8], 0x21, [0xFFF0], 'BinaryLit {{ op: %s, a: 1, b: 2, v: {} }}'.format(INT - 16))
    + each(0xD8, WITH_LITERAL, 0x21, [0x8022], 'BinaryLit {{ op: %s, a: 33, b: 34, v: {} }}'.format(INT - 128)))

# first units that begin no instruction, and their low byte
REFUSED = [
    ('a payload of a packed switch', 0x0100, 0x00),
    ('a payload of a sparse switch', 0x0200, 0x00),
    ('a payload of items', 0x0300, 0x00),
    ('a high byte of return-void', 0x010E, 0x0E),
    ('a high byte of goto/16', 0x0129, 0x29),
    ('a high byte of goto/32', 0x012A, 0x2A),
    ('a high byte of move/16', 0x0103, 0x03),
    ('six registers of a new array', 0x6024, 0x24),
    ('fifteen registers of a call', 0xF06E, 0x6E),
    ('the unused opcode between the calls', 0x0073, 0x73),
    ('the unused opcode behind the literals', 0x00E3, 0xE3),
    ('the last opcode', 0x00FF, 0xFF),
]

CUT = 'Cut: the instruction is cut off'
RANGE = 'Range: an operand does not fit its format'

# what the case shows, the units, how many are the payload's, and what it says
PAYLOADS = [
    ('two cases from a first key', [0x0100, 2, 0xFFFE, 0xFFFF, 1, 0, 0xFFFF, 0xFFFF, 7, 7], 8,
     'Packed { first: -2, targets: [1, 0, 65535, 65535] }'),
    ('no case from a first key', [0x0100, 0, 3, 0, 7, 7, 7, 7, 7, 7], 4, 'Packed { first: 3, targets: [] }'),
    ('two cases with keys', [0x0200, 2, 1, 2, 3, 4, 5, 6, 7, 8], 10, 'Sparse { keys: [1, 2, 3, 4], targets: [5, 6, 7, 8] }'),
    ('no case with a key', [0x0200, 0, 7, 7], 2, 'Sparse { keys: [], targets: [] }'),
    ('three items of a byte, padded', [0x0300, 1, 3, 0, 0x0201, 0x0003, 7, 7, 7, 7], 6, 'Array { width: 1, size: 3, items: [513, 3] }'),
    ('one item of eight bytes', [0x0300, 8, 1, 0, 1, 2, 3, 4, 7, 7], 8, 'Array { width: 8, size: 1, items: [1, 2, 3, 4] }'),
    ('one item of four bytes', [0x0300, 4, 1, 0, 0x5678, 0x1234], 6, 'Array { width: 4, size: 1, items: [22136, 4660] }'),
    ('no item of two bytes', [0x0300, 2, 0, 0, 7, 7, 7, 7, 7, 7], 4, 'Array { width: 2, size: 0, items: [] }'),
]

# what the case shows, the units, and the place where no payload stands
NO_PAYLOADS = [
    ('no items have three bytes', [0x0300, 3, 0, 0], 0),
    ('no items have no byte', [0x0300, 0, 0, 0], 0),
    ('no items have sixteen bytes', [0x0300, 16, 0, 0], 0),
    ('a fourth kind of payload', [0x0400, 0, 0, 0], 0),
    ('an instruction is no payload', [0x0000, 0, 0, 0], 0),
    ('a payload behind the end', [0x0100, 0, 0, 0], 5),
    ('a payload at the end', [0x0100, 0, 0, 0], 4),
    ('the second unit of a payload', [0x0100, 0, 0, 0], 1),
    ('more items than 32 bits count in bytes', [0x0300, 8, 0xFFFF, 0xFFFF], 0),
]

HALF = -(0x7FFF << 48)  # the bits of 0x8001 above 48 zeros

# a name, its operands, and the units that are written or the refusal
WRITES = [
    ('a literal above four bits', 'const/4', (1, 8), RANGE),
    ('the largest literal of four bits', 'const/4', (1, 7), '7112'),
    ('the least literal of four bits', 'const/4', (1, -8), '8112'),
    ('a literal below four bits', 'const/4', (1, -9), RANGE),
    ('a register above four bits before a literal', 'const/4', (16, 0), RANGE),
    ('a literal with bits below the top unit', 'const-wide/high16', (1, 1), RANGE),
    ('a literal with the lowest bit below the top unit', 'const-wide/high16', (1, 2**47), RANGE),
    ('a literal of the top unit', 'const-wide/high16', (255, HALF), 'ff19 8001'),
    ('a second register above four bits', 'array-length', (1, 16), RANGE),
    ('a first register above four bits', 'array-length', (16, 1), RANGE),
    ('registers of four bits', 'array-length', (1, 15), 'f121'),
    ('a register above a byte', 'throw', (256,), RANGE),
    ('a register of a byte', 'throw', (255,), 'ff27'),
    ('an index above a unit', 'const-string', (1, 65536), RANGE),
    ('an index of a unit', 'const-string', (1, 65535), '011a ffff'),
    ('a distance below a byte', 'goto', (-129,), RANGE),
    ('the least distance of a byte', 'goto', (-128,), '8028'),
    ('the largest distance of a byte', 'goto', (127,), '7f28'),
    ('a distance above a byte', 'goto', (128,), RANGE),
    ('the least distance of a unit', 'if-eqz', (2, -32768), '0238 8000'),
    ('a distance below a unit', 'if-eqz', (2, -32769), RANGE),
    ('the largest distance of a unit', 'if-eqz', (2, 32767), '0238 7fff'),
    ('a distance above a unit', 'if-eqz', (2, 32768), RANGE),
    ('a first operand that is another register', 'add-int/2addr', (1, 2, 3), RANGE),
    ('a first operand that is the register', 'add-int/2addr', (1, 1, 3), '31b0'),
    ('a named register above four bits', 'filled-new-array', (0, 16), RANGE),
    ('a named register of four bits', 'filled-new-array', (5, 15), '1024 0005 000f'),
    ('an index above a unit before a register', 'filled-new-array', (65536, 1), RANGE),
    ('registers in a row', 'filled-new-array/range', (5, 65535, 255), 'ff25 0005 ffff'),
    ('an index above a unit before a row', 'filled-new-array/range', (65536, 0, 0), RANGE),
]


def in_hex(units):
    return ''.join('%04x' % u for u in units)


def digits(units):
    return ' '.join('%04x' % u for u in units)


def case(out, title, units):
    out.row('case')
    out.under(title, '-short')
    if units:
        out.row('units', in_hex(units))


def ask(out, title, row, answer):
    """A row of the case with its answer, as the program tells what is longer than 600 bytes."""
    if len(answer) > 600:
        answer = '%d bytes %s' % (len(answer), hashlib.sha1(answer.encode()).hexdigest())
    out.row(row)
    out.want('%s: %s' % (title, answer))


def unsupported(op):
    return 'Unsupported(%d): not a supported instruction' % op


def units_of(instruction):
    op, high, further, _ = instruction
    return [high << 8 | op] + further


def said(instruction):
    return 'RawInsn { op: %d, body: %s }' % (instruction[0], instruction[3])


def opcodes(out):
    """Each opcode both ways, whole and cut, and each that there is not."""
    assert len(INSTRUCTIONS) == 182
    for instruction in INSTRUCTIONS:
        op, units = instruction[0], units_of(instruction)
        title = 'opcode %02x' % op
        case(out, title, units)
        ask(out, title, 'length %d' % op, str(len(units)))
        ask(out, title, 'decode 0', '%s %d' % (said(instruction), len(units)))
        ask(out, title, 'encode 0', digits(units))
        for length in range(len(units) - 1, 0, -1):
            out.row('cut', length)
            ask(out, title, 'decode 0', CUT)
    for op in sorted(set(range(256)) - {i[0] for i in INSTRUCTIONS}):
        title = 'no opcode %02x' % op
        case(out, title, [op, 0, 0, 0, 0])
        ask(out, title, 'length %d' % op, 'none')
        ask(out, title, 'decode 0', unsupported(op))
        ask(out, title, 'encode 0', unsupported(op))


def refusals(out):
    """What is unsupported is so before it is cut, and wherever it stands."""
    for shows, unit, op in REFUSED:
        case(out, shows, [unit])
        ask(out, shows, 'decode 0', unsupported(op))
        title = shows + ', behind an instruction'
        case(out, title, [0, unit, 0, 0, 0, 0])
        ask(out, title, 'decode 1', unsupported(op))
    title = 'no instruction behind the end'
    case(out, title, [0])
    ask(out, title, 'decode 1', 'none')
    title = 'a place that names no register becomes 0'
    case(out, title, [0, 0x1F24, 5, 0x5432])
    ask(out, title, 'decode 1', 'RawInsn { op: 36, body: Filled { t: 5, regs: %s } } 3' % few(1, 2, 0, 0, 0, 0))
    ask(out, title, 'encode 1', '1024 0005 0002')


def payloads(out):
    for shows, units, length, says in PAYLOADS:
        case(out, shows, units)
        ask(out, shows, 'payload 0', 'Some(%s)' % says)
        out.row('cut', length)
        ask(out, shows, 'payload 0', 'Some(%s)' % says)
        for shorter in range(length - 1, -1, -1):
            out.row('cut', shorter)
            ask(out, shows, 'payload 0', 'None')
        title = shows + ', behind an instruction'
        case(out, title, [0] + units[:length])
        ask(out, title, 'payload 1', 'Some(%s)' % says)
    for shows, units, place in NO_PAYLOADS:
        case(out, shows, units)
        ask(out, shows, 'payload %d' % place, 'None')


def large_payloads(out):
    most = 65535
    targets = '[%s]' % ', '.join(['2, 1'] * most)
    keys = '[%s]' % ', '.join(['4, 3'] * most)
    for shows, head, parts, says in [
            ('as many cases as there can be, from a first key', [0x0100, most, 5, 0], [[2, 1]], 'Packed { first: 5, targets: %s }' % targets),
            ('as many cases as there can be, with keys', [0x0200, most], [[4, 3], [2, 1]], 'Sparse { keys: %s, targets: %s }' % (keys, targets)),
            ('many items of four bytes', [0x0300, 4, most, 0], [[2, 1]], 'Array { width: 4, size: 65535, items: %s }' % targets)]:
        case(out, shows, head)
        for part in parts:
            out.row('times', most, in_hex(part))
        ask(out, shows, 'payload 0', 'Some(%s)' % says)
        out.row('cut', len(head) + 2 * most * len(parts) - 1)
        ask(out, shows, 'payload 0', 'None')
    shows, count = 'more items of a byte than a unit counts, padded', 131073
    case(out, shows, [0x0300, 1, count & 0xFFFF, count >> 16])
    out.row('times', count // 2 + 1, '0201')
    says = 'Array { width: 1, size: %d, items: [%s] }' % (count, ', '.join(['513'] * (count // 2 + 1)))
    ask(out, shows, 'payload 0', 'Some(%s)' % says)
    out.row('cut', 4 + count // 2)
    ask(out, shows, 'payload 0', 'None')


def walks(out):
    """Instructions one behind the other."""
    times = 500
    units = [u for i in INSTRUCTIONS for u in units_of(i)]
    title = 'many instructions'
    out.row('case')
    out.under(title, '-short')
    out.row('times', times, in_hex(units))

    def walked(count, length):
        written = b''.join(u.to_bytes(2, 'little') for u in (units * times)[:length])
        return '%d to %d, written as %d bytes %s' % (count, length, len(written), hashlib.sha1(written).hexdigest())

    length = times * len(units)
    ask(out, title, 'walk', walked(182 * times, length))
    last = INSTRUCTIONS[-1]
    ask(out, title, 'decode %d' % (length - 2), '%s 2' % said(last))
    ask(out, title, 'encode %d' % (length - 2), digits(units_of(last)))
    out.row('cut', length - 1)
    ask(out, title, 'decode %d' % (length - 2), CUT)
    ask(out, title, 'walk', walked(182 * times - 1, length - 2))
    title = 'instructions up to a payload'
    case(out, title, units_of(INSTRUCTIONS[0]) + [0x0100, 0, 0, 0])
    ask(out, title, 'walk', '1 to 1, written as 2 bytes %s' % hashlib.sha1(b'\0\0').hexdigest())


def rows(out):
    opcodes(out)
    refusals(out)
    payloads(out)
    large_payloads(out)
    for shows, name, operands, answer in WRITES:
        out.row('case')
        out.under(shows, '-short')
        ask(out, shows, 'write %s %s' % (name, ' '.join(str(o) for o in operands)), answer)
    walks(out)
