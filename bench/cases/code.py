"""Code items: their heads, ranges and handlers, and the pieces that their units are.

Most stand at 112 behind a header that says that there are three types, and no strings, fields or methods.
"""

from . import made
from .made import at, digest, half, listed, uleb, word
from .members import Places

HEADER = bytes(64) + word(3) + bytes(44)
PLACE = len(HEADER)


def item(registers, ins, outs, units, ranges=(), lists=b''):
    """A code item; each range has its first unit, its size, and where its list stands behind the beginning of the lists."""
    data = b''.join(map(half, [registers, ins, outs, len(ranges)])) + word(0) + word(len(units))
    data += b''.join(map(half, units))
    if ranges:
        data += b'\xff\xff' * (len(units) % 2)
        data += b''.join(word(first) + half(size) + half(place) for first, size, place in ranges)
    return data + lists


# Two registers, one argument word and four units, of which the first two have a handler of type 2 at unit 3.
ONE = item(2, 1, 0, [0, 0, 0, 0xE], [(0, 2, 1)], b'\1\1\2\3\0')

# Three units, which are padded, and two ranges with one list; behind it is one that no range has.
TWO = item(2, 1, 0, [0, 0, 0xE], [(0, 1, 1), (1, 1, 1)], b'\2\x7f\2\1\2\0\2')

# What is written over a code item, and whether it holds for a method with one argument word.
ITEMS = [
    ('a range with a handler', ONE, [], True),
    ('two ranges with one list', TWO, [], True),
    ('two argument words', ONE, [(2, 2)], False),
    ('no register for the argument', ONE, [(0, 0)], False),
    ('an empty range', ONE, [(28, 0)], True),
    ('a range up to the last unit', ONE, [(28, 4)], True),
    ('a range past the last unit', ONE, [(28, 5)], False),
    ('a range whose list begins elsewhere', ONE, [(30, 2)], False),
    ('a type that there is not', ONE, [(34, 3)], False),
    ('a handler behind the last unit', ONE, [(35, 4)], False),
    ('a handler of all alone', ONE, [(33, 0), (34, 3)], True),
    ('a handler of all behind the last unit', ONE, [(33, 0), (34, 4)], False),
    ('a typed handler and one of all', ONE, [(33, 0x7F)], True),
    ('a list that ends behind the file', ONE, [(33, 2)], False),
    ('two ranges that overlap', TWO, [(28, 2)], False),
    ('ranges that do not rise', TWO, [(32, 0)], False),
    ('a list that no range has, with a handler behind the last unit', TWO, [(46, 3)], False),
    ('no units', ONE, [(6, 0), (12, 0)], False),
]

# Units; the pieces that they are, each by its first unit and its size, or a payload by P; where these stop; the first
# instruction that points at no payload of its kind; and the first with an index that is out of range, as are all that are no
# type 0 to 2.
P = 'payload'
CODES = [
    ('the initialiser that sets 5', [0x5012, 0x67, 0, 0xE], [(0, 1), (1, 2), (3, 1)], None, None, 1),
    ('the main that prints', [0x60, 0, 0x1071, 2, 0, 0xE], [(0, 2), (2, 3), (5, 1)], None, None, 0),
    ('a packed switch', [0x2B, 4, 0, 0xE, 0x100, 0, 0, 0], [(0, 3), (3, 1), (4, 4, P)], None, None, None),
    ('a packed switch at an odd unit', [0xE, 0x2B, 4, 0, 0xE, 0x100, 0, 0, 0], [(0, 1), (1, 3), (4, 1), (5, 4, P)], None, 1, None),
    ('a sparse switch with the keys -1 and 0', [0x2C, 4, 0, 0xE, 0x200, 2, 0xFFFF, 0xFFFF, 0, 0, 3, 0, 3, 0],
     [(0, 3), (3, 1), (4, 10, P)], None, None, None),
    ('a sparse switch with the keys 0 and -1', [0x2C, 4, 0, 0xE, 0x200, 2, 0, 0, 0xFFFF, 0xFFFF, 3, 0, 3, 0],
     [(0, 3), (3, 1), (4, 10, P)], None, 0, None),
    ('a sparse switch with equal keys', [0x2C, 4, 0, 0xE, 0x200, 2, 1, 0, 1, 0, 3, 0, 3, 0],
     [(0, 3), (3, 1), (4, 10, P)], None, 0, None),
    ('three bytes', [0x26, 4, 0, 0xE, 0x300, 1, 3, 0, 0x201, 3], [(0, 3), (3, 1), (4, 6, P)], None, None, None),
    ('a switch to three bytes', [0x2B, 4, 0, 0xE, 0x300, 1, 3, 0, 0x201, 3], [(0, 3), (3, 1), (4, 6, P)], None, 0, None),
    ('a payload before its switch', [0x100, 0, 0, 0, 0x2B, 0xFFFC, 0xFFFF], [(0, 4, P), (4, 3)], None, None, None),
    ('no payload before the first unit', [0x2B, 0xFFFC, 0xFFFF], [(0, 3)], None, 0, None),
    ('an instruction that is cut', [0xE, 0x13], [(0, 1)], 1, None, None),
    ('a payload that is cut', [0xE, 0x300, 1, 3, 0, 0x201], [(0, 1)], 1, None, None),
    ('a const-class in range', [0x1C, 2, 0xE], [(0, 2), (2, 1)], None, None, None),
    ('a new-instance out of range', [0x1C, 2, 0x22, 3, 0xE], [(0, 2), (2, 2), (4, 1)], None, None, 2),
    ('a const-string out of range', [0x1A, 0, 0xE], [(0, 2), (2, 1)], None, None, 0),
]

# A packed switch with one case, for single questions.
SWITCH = item(1, 0, 0, [0x2B, 4, 0, 0xE, 0x100, 1, 7, 0, 3, 0])
PAYLOADS = [
    ('the payload at unit 4', 0, 4, 'Some(Packed { first: 7, targets: [3, 0] })'),
    ('no payload at unit 3', 0, 3, 'None'),
    ('no payload far before the first unit', 0, -2 ** 31, 'None'),
    ('no payload far behind the last unit', 2 ** 32 - 1, 2 ** 31 - 1, 'None'),
]
PIECES = [('the piece at unit 3', 3, '3+1'), ('the piece at unit 4', 4, '4+6 payload'), ('no piece at unit 5', 5, 'none')]

# The place of a list of TWO, and how it is told.
FOUND = [
    ('the list that both ranges have', 153, 'Some(HandlerList { at: 153, typed: Listed { items: [Handler { ty: 2, to: 1 }] }, last: Some(2) })'),
    ('the list that no range has', 157, 'Some(HandlerList { at: 157, typed: Listed { items: [] }, last: Some(2) })'),
    ('no list within another', 154, 'None'),
]

# The codes of the worked file, whose strings have the names from 100 on.
SAID = [
    ('the code of the initialiser', 284,
     'Code { regs: 1, ins: 0, outs: 0, units: 4, insns: Listed { items: ['
     'Line { at: 0, units: 1, insn: Const { a: 0, v: 5 } }, '
     'Line { at: 1, units: 2, insn: Sput { kind: Plain, a: 0, f: FieldRef { class: NameNo(102), name: NameNo(111), ty: NameNo(101) } } }, '
     'Line { at: 3, units: 1, insn: ReturnVoid }] }, tries: Listed { items: [] } }'),
    ('the code of main', 308,
     'Code { regs: 2, ins: 1, outs: 1, units: 6, insns: Listed { items: ['
     'Line { at: 0, units: 2, insn: Sget { kind: Plain, a: 0, f: FieldRef { class: NameNo(102), name: NameNo(111), ty: NameNo(101) } } }, '
     'Line { at: 2, units: 3, insn: Invoke { how: Static, m: MethodRef { class: NameNo(104), name: NameNo(110), '
     'params: Listed { items: [NameNo(101)] }, ret: NameNo(105) }, regs: Listed { items: [0] } } }, '
     'Line { at: 5, units: 1, insn: ReturnVoid }] }, tries: Listed { items: [] } }'),
]


class Broken(Exception):
    """What is read is not in the file, or does not hold."""


class Handlers(Places):
    """The lists of handlers of a code with so many units, in a file with so many types."""

    def __init__(self, data, place, units, types):
        super().__init__(data, place)
        self.units, self.types = units, types

    def fixed(self, size):
        if self.place + size > len(self.data):
            raise Broken()
        return super().fixed(size)

    def sleb(self):
        begin = self.place
        number, bits = self.uleb(), 7 * (self.place - begin)
        return number - (1 << bits) if number >> (bits - 1) else number

    def below(self, bound):
        number = self.uleb()
        if number >= bound:
            raise Broken()
        return number

    def list(self):
        place, size = self.place, self.sleb()
        typed = [(self.below(self.types), self.below(self.units)) for _ in range(abs(size))]
        return place, typed, None if size > 0 else self.below(self.units)


def ranges_of(data, begin, count, units):
    ranges = [(at(data, begin + 8 * k), at(data, begin + 8 * k + 4, 2), at(data, begin + 8 * k + 6, 2)) for k in range(count)]
    ends = [0] + [first + size for first, size, _ in ranges]
    if any(end > units for end in ends) or any(end > first for end, (first, _, _) in zip(ends, ranges)):
        raise Broken()
    return ranges


def lists_of(data, place, ranges, units):
    handlers = Handlers(data, place, units, at(data, 64))
    lists = [handlers.list() for _ in range(handlers.uleb())]
    if {place + behind for _, _, behind in ranges} - {at for at, _, _ in lists}:
        raise Broken()
    return lists


def spelled_list(place, typed, last):
    handlers = listed('Handler { ty: %d, to: %d }' % handler for handler in typed)
    return 'HandlerList { at: %d, typed: %s, last: %s }' % (place, handlers, option(last))


def option(number):
    return 'None' if number is None else 'Some(%d)' % number


def handlers_of(data, place, begin, tries, count):
    """The lines on ranges and on lists."""
    try:
        ranges = ranges_of(data, begin, tries, count)
    except Broken:
        return ['ranges that do not hold', 'lists that do not hold']
    lines = ['TryRange { from: %d, size: %d, handlers: %d }' % r for r in ranges]
    try:
        return lines + [spelled_list(*found) for found in (lists_of(data, place, ranges, count) if ranges else [])]
    except Broken:
        return lines + ['lists that do not hold']


def told(data, holds, pieces, stop=None, payload=None, index=None):
    """All lines by which a code item at PLACE is told, of which the last ones are given."""
    registers, ins, outs, tries = (at(data, PLACE + 2 * k, 2) for k in range(4))
    count = at(data, PLACE + 12)
    begin = PLACE + 16 + 2 * (count + count % 2)
    place = begin + 8 * tries
    yield 'holds %s' % ('true' if holds else 'false')
    yield 'CodeHead { registers: %d, ins: %d, outs: %d, tries: %d, units: %d }, lists at %d' % (registers, ins, outs, tries, count, place)
    yield from handlers_of(data, place, begin, tries, count)
    yield 'units %s' % [at(data, PLACE + 16 + 2 * k, 2) for k in range(count)]
    yield ' '.join(['%d pieces' % len(pieces)] + ['%d+%d' % piece[:2] + ' payload' * (piece[2:] == (P,)) for piece in pieces])
    yield 'stops at %s' % option(stop)
    yield 'broken payload %s, broken index %s' % (option(payload), option(index))


def begin(out, content):
    out.row('case')
    out.row('file', 'a.dex', '-')
    out.row('put', 0, HEADER.hex() + content.hex())


def tell(out, title, words, lines):
    out.under(title)
    out.row('item', PLACE, words)
    for line in lines:
        out.want('%s: %s' % (title, line))


def large(out):
    """100,000 units, of which each of the first 500 has a handler of its own, which is 1 unit behind."""
    count, guarded = 100000, 500
    lists = uleb(guarded)
    ranges = []
    for k in range(guarded):
        ranges.append((k, 1, len(lists)))
        lists += b'\1' + uleb(2) + uleb(k + 1)
    head = item(1, 0, 0, [0] * count, ranges, lists)
    begin(out, head[:16])
    out.row('zeros', 2 * count)
    behind = PLACE + 16 + 2 * count
    out.row('put', behind - 2, half(0x0E).hex())
    out.row('put', behind, head[16 + 2 * count:].hex())
    data = HEADER + head[:14 + 2 * count] + half(0x0E) + head[16 + 2 * count:]
    out.under('a long code with many ranges', '-digest')
    out.row('item', PLACE, 0)
    out.want('a long code with many ranges: ' + digest(told(data, True, [(k, 1) for k in range(count)])))


def rows(out):
    out.note('code items')
    for title, content, edits, holds in ITEMS:
        begin(out, made.altered(content, [(place, [byte]) for place, byte in edits]))
        data = HEADER + made.altered(content, [(place, [byte]) for place, byte in edits])
        tell(out, title, 1, told(data, holds, [(k, 1) for k in range(at(data, PLACE + 12))]))
    out.under('a code item at no multiple of four')
    out.row('item', PLACE + 2, 1)
    out.want('a code item at no multiple of four: holds false')
    begin(out, ONE[:22])
    tell(out, 'a code item whose units are cut', 1, ['holds false'])
    begin(out, TWO)
    for title, place, line in FOUND:
        out.under(title)
        out.row('list', PLACE, place)
        out.want('%s: %s' % (title, line))
    out.note('units')
    for title, units, *answers in CODES:
        begin(out, item(1, 0, 0, units))
        tell(out, title, 0, told(HEADER + item(1, 0, 0, units), True, *answers))
    begin(out, SWITCH)
    for title, unit, distance, line in PAYLOADS:
        out.under(title)
        out.row('payload', PLACE, unit, distance)
        out.want('%s: %s' % (title, line))
    for title, unit, line in PIECES:
        out.under(title)
        out.row('piece', PLACE, unit)
        out.want('%s: %s' % (title, line))
    large(out)
    out.note('what codes say')
    made.alter(out, 'five.dex', [])
    for title, place, line in SAID:
        out.under(title)
        out.row('says', place)
        out.want('%s: %s' % (title, line))
