"""The files that the cases are about, and what program they say, worked out from docs/dex-format.md.

Nothing here shares anything with the reader that is tested. A file is described by dexfile.py; codes are a dictionary from
the names of a class and of its method to the number of units and the instructions, each with its address, its length and
a function from names to how it prints.
"""

import hashlib

from dexfile import Class, Code, Field, File, Method, sign, uleb

from .five import five

OBJECT, STRING = 'Ljava/lang/Object;', 'Ljava/lang/String;'
BIN = ['Add', 'Sub', 'Mul', 'Div', 'Rem', 'And', 'Or', 'Xor', 'Shl', 'Shr', 'Ushr']
LIT = ['Add', 'Rsub', 'Mul', 'Div', 'Rem', 'And', 'Or', 'Xor', 'Shl', 'Shr', 'Ushr']
ACCESS = ['Plain', 'Wide', 'Ref', 'Bool', 'Byte', 'Char', 'Short']
COND = ['Eq', 'Ne', 'Lt', 'Ge', 'Gt', 'Le']
KINDS = ['Word', 'Wide', 'Ref']
HOWS = ['Virtual', 'Super', 'Direct', 'Static', 'Interface']
W = 1 << 32


class Program:
    """Units of a code with what each instruction says; names are filled in when all strings are known."""

    def __init__(self):
        self.units, self.said = [], []

    def add(self, units, text):
        self.said.append((len(self.units), len(units) + sum(u[0] == 'string32' for u in units if isinstance(u, tuple)), text))
        for u in units:
            self.units.append(u)
            if isinstance(u, tuple) and u[0] == 'string32':
                self.units.append(None)

    def here(self):
        return len(self.units)


def number(ty):
    return lambda name: 'NameNo(%d)' % name(ty)


def field_text(f):
    return lambda name: 'FieldRef { class: NameNo(%d), name: NameNo(%d), ty: NameNo(%d) }' % (name(f[0]), name(f[1]), name(f[2]))


def listed(items):
    return 'Listed { items: [%s] }' % ', '.join(items)


def method_text(m):
    return lambda name: 'MethodRef { class: NameNo(%d), name: NameNo(%d), params: %s, ret: NameNo(%d) }' % (
        name(m[0]), name(m[1]), listed(['NameNo(%d)' % name(p) for p in m[2]]), name(m[3]))


def signed(n, bits):
    n &= (1 << bits) - 1
    return n - (1 << bits) if n >> (bits - 1) else n


def every_instruction():
    p = Program()
    field, method, ty = ('LE;', 'i', 'I'), ('LE;', 'f', ('I', 'J', STRING), 'V'), '[I'
    lit = lambda s: (lambda name: s)
    op10 = lambda op, t: p.add([op], lit(t))
    op10(0x00, 'Nop')
    for k, kind in enumerate(KINDS):
        base = 1 + 3 * k
        p.add([base | 0x2100], lit('Move { kind: %s, a: 1, b: 2 }' % kind))
        p.add([base + 1 | 0x0300, 0x1234], lit('Move { kind: %s, a: 3, b: 4660 }' % kind))
        p.add([base + 2, 0xFFFF, 0x8000], lit('Move { kind: %s, a: 65535, b: 32768 }' % kind))
    for k, kind in enumerate(KINDS):
        p.add([0x0A + k | 0x0400], lit('MoveResult { k: %s, a: 4 }' % kind))
    p.add([0x0D | 0xFF00], lit('MoveException { a: 255 }'))
    op10(0x0E, 'ReturnVoid')
    for k, kind in enumerate(KINDS):
        p.add([0x0F + k | 0x0500], lit('Return { k: %s, a: 5 }' % kind))
    p.add([0x12 | 0x1 << 8 | 0xD << 12], lit('Const { a: 1, v: %d }' % (-3 % W)))
    p.add([0x13 | 0x0600, 0xFFFE], lit('Const { a: 6, v: %d }' % (-2 % W)))
    p.add([0x14 | 0x0700, 0x5678, 0x8234], lit('Const { a: 7, v: %d }' % 0x82345678))
    p.add([0x15 | 0x0800, 0x8001], lit('Const { a: 8, v: %d }' % 0x80010000))
    p.add([0x16 | 0x0900, 0x8000], lit('ConstWide { a: 9, v: %d }' % (-32768 % (W * W))))
    p.add([0x17 | 0x0A00, 0x0000, 0x8000], lit('ConstWide { a: 10, v: %d }' % (-(1 << 31) % (W * W))))
    p.add([0x18 | 0x0B00, 0x1111, 0x2222, 0x3333, 0x4444], lit('ConstWide { a: 11, v: %d }' % 0x4444333322221111))
    p.add([0x19 | 0x0C00, 0x8001], lit('ConstWide { a: 12, v: %d }' % (0x8001 << 48)))
    p.add([0x1A | 0x0D00, ('string', 'hi')], lambda name: 'ConstString { a: 13, s: NameNo(%d) }' % name('hi'))
    p.add([0x1B | 0x0E00, ('string32', '\u20ac')], lambda name: 'ConstString { a: 14, s: NameNo(%d) }' % name('\u20ac'))
    p.add([0x1C | 0x0F00, ('type', ty)], lambda name: 'ConstClass { a: 15, t: NameNo(%d) }' % name(ty))
    p.add([0x1D | 0x1000], lit('Monitor { a: 16 }'))
    p.add([0x1E | 0x1100], lit('Monitor { a: 17 }'))
    p.add([0x1F | 0x1200, ('type', ty)], lambda name: 'CheckCast { a: 18, t: NameNo(%d) }' % name(ty))
    p.add([0x20 | 0x2100, ('type', ty)], lambda name: 'InstanceOf { a: 1, b: 2, t: NameNo(%d) }' % name(ty))
    p.add([0x21 | 0x4300], lit('ArrayLength { a: 3, b: 4 }'))
    p.add([0x22 | 0x1300, ('type', 'LE;')], lambda name: 'NewInstance { a: 19, t: NameNo(%d) }' % name('LE;'))
    p.add([0x23 | 0x6500, ('type', ty)], lambda name: 'NewArray { a: 5, b: 6, t: NameNo(%d) }' % name(ty))
    p.add([0x24 | 0x5E00, ('type', ty), 0xDCBA], lambda name: 'Filled { t: NameNo(%d), regs: %s }' % (name(ty), listed(['10', '11', '12', '13', '14'])))
    p.add([0x24 | 0x0F00, ('type', ty), 0xFFFF], lambda name: 'Filled { t: NameNo(%d), regs: %s }' % (name(ty), listed([])))
    p.add([0x25 | 0x0300, ('type', ty), 0xFFFE], lambda name: 'Filled { t: NameNo(%d), regs: %s }' % (name(ty), listed(['65534', '65535', '0'])))
    fill_at = p.here()
    p.add([0x26 | 0x1400, 0, 0], None)
    p.add([0x27 | 0x1500], lit('Throw { a: 21 }'))
    at = p.here()
    p.add([0x28 | 0xFB00], lit('Goto { to: %d }' % (at - 5)))
    at = p.here()
    p.add([0x29, 0x8000], lit('Goto { to: %d }' % ((at - 32768) % W)))
    at = p.here()
    p.add([0x2A, 0x0001, 0x8000], lit('Goto { to: %d }' % ((at + signed(0x80000001, 32)) % W)))
    packed_at = p.here()
    p.add([0x2B | 0x1600, 0, 0], None)
    sparse_at = p.here()
    p.add([0x2C | 0x1700, 0, 0], None)
    p.add([0x31 | 0x1800, 0x1A19], lit('CmpLong { a: 24, b: 25, c: 26 }'))
    for k, cond in enumerate(COND):
        at = p.here()
        p.add([0x32 + k | 0x2100, 0x0007], lit('If { cond: %s, a: 1, b: 2, to: %d }' % (cond, at + 7)))
    for k, cond in enumerate(COND):
        at = p.here()
        p.add([0x38 + k | 0x1B00, 0xFFFF], lit('IfZ { cond: %s, a: 27, to: %d }' % (cond, at - 1)))
    for op, name_ in ((0x44, 'Aget'), (0x4B, 'Aput')):
        for k, kind in enumerate(ACCESS):
            p.add([op + k | 0x1C00, 0x1E1D], lit('%s { kind: %s, a: 28, b: 29, c: 30 }' % (name_, kind)))
    ref = field_text(field)
    for op, name_ in ((0x52, 'Iget'), (0x59, 'Iput')):
        for k, kind in enumerate(ACCESS):
            p.add([op + k | 0x4300, ('field',) + field], (lambda n, kd: lambda name: '%s { kind: %s, a: 3, b: 4, f: %s }' % (n, kd, ref(name)))(name_, kind))
    for op, name_ in ((0x60, 'Sget'), (0x67, 'Sput')):
        for k, kind in enumerate(ACCESS):
            p.add([op + k | 0x1F00, ('field',) + field], (lambda n, kd: lambda name: '%s { kind: %s, a: 31, f: %s }' % (n, kd, ref(name)))(name_, kind))
    mref = method_text(method)
    for k, how in enumerate(HOWS):
        p.add([0x6E + k | 0x2000, ('method',) + method, 0x0021], (lambda h: lambda name: 'Invoke { how: %s, m: %s, regs: %s }' % (h, mref(name), listed(['1', '2'])))(how))
    for k, how in enumerate(HOWS):
        p.add([0x74 + k | 0x0200, ('method',) + method, 0x0100], (lambda h: lambda name: 'Invoke { how: %s, m: %s, regs: %s }' % (h, mref(name), listed(['256', '257'])))(how))
    for op, name_ in ((0x7B, 'NegInt'), (0x7C, 'NotInt'), (0x7D, 'NegLong'), (0x7E, 'NotLong'), (0x81, 'IntToLong'), (0x84, 'LongToInt'),
                      (0x8D, 'IntToByte'), (0x8E, 'IntToChar'), (0x8F, 'IntToShort')):
        p.add([op | 0x6500], lit('Unary { op: %s, a: 5, b: 6 }' % name_))
    for base, ty_ in ((0x90, 'Int'), (0x9B, 'Long')):
        for k, op in enumerate(BIN):
            p.add([base + k | 0x0700, 0x0908], lit('Binary { op: %s(%s), a: 7, b: 8, c: 9 }' % (ty_, op)))
    for base, ty_ in ((0xB0, 'Int'), (0xBB, 'Long')):
        for k, op in enumerate(BIN):
            p.add([base + k | 0x8700], lit('Binary { op: %s(%s), a: 7, b: 7, c: 8 }' % (ty_, op)))
    for k in range(8):
        p.add([0xD0 + k | 0x2100, 0x8000], lit('BinaryLit { op: %s, a: 1, b: 2, v: %d }' % (LIT[k], -32768 % W)))
    for k in range(11):
        p.add([0xD8 + k | 0x2000, 0x8003], lit('BinaryLit { op: %s, a: 32, b: 3, v: %d }' % (LIT[k], -128 % W)))
    end = p.here()
    if end % 2:
        p.add([0], lit('Nop'))
    places = {'fill': fill_at, 'packed': packed_at, 'sparse': sparse_at}

    def payload(at, units):
        q = p.here()
        dist = q - at
        p.units[at + 1], p.units[at + 2] = dist & 0xFFFF, dist >> 16
        p.units += units
        return q

    places['fill data'] = payload(fill_at, [0x0300, 2, 3, 0, 1, 0x8000, 0xFFFF])
    if p.here() % 2:
        p.add([0], lit('Nop'))
    places['packed data'] = payload(packed_at, [0x0100, 2, 0xFFFF, 0xFFFF, 4, 0, 0xFFFE, 0xFFFF])
    if p.here() % 2:
        p.add([0], lit('Nop'))
    places['sparse data'] = payload(sparse_at, [0x0200, 2, 0xFFFF, 0xFFFF, 9, 0, 5, 0, 0xFFFB, 0xFFFF])
    said = []
    for at, n, text in p.said:
        if at == fill_at:
            text = lit('FillArray { a: 20, width: 2, items: %s }' % listed(['1', '32768', '65535']))
        elif at == packed_at:
            text = lit('Switch { a: 22, cases: %s }' % listed(['Case { key: %d, to: %d }' % (-1 % W, at + 4), 'Case { key: 0, to: %d }' % (at - 2)]))
        elif at == sparse_at:
            text = lit('Switch { a: 23, cases: %s }' % listed(['Case { key: %d, to: %d }' % (-1 % W, at + 5), 'Case { key: 9, to: %d }' % (at - 5)]))
        said.append((at, n, text))
    units = [u for u in p.units if u is not None]
    return units, len(p.units), said, places


def init_text(f, name):
    v = f.value
    if v is None:
        return 'Zero'
    if isinstance(v, tuple):
        return ('Str' if v[0] == 'string' else 'Cls') + '(NameNo(%d))' % name(v[1])
    kind, arg = v[0] & 31, v[0] >> 5
    n = int.from_bytes(v[1:], 'little')
    if kind in (0, 2, 4):
        n = signed(n, 8 * (arg + 1)) % W
    elif kind == 6:
        n = signed(n, 8 * (arg + 1)) % (W * W)
        return 'Long(%d)' % n if n else 'Zero'
    elif kind == 0x1F:
        n = arg
    elif kind == 0x1E:
        return 'Zero'
    return 'Word(%d)' % n if n else 'Zero'


def class_text(c, file_no, name, codes):
    fields = []
    for f in c.statics + c.instances:
        fields.append('FieldDesc { name: NameNo(%d), ty: NameNo(%d), flags: %d, init: %s }' % (name(f.name), name(f.ty), f.flags, init_text(f, name)))
    methods = []
    for m in c.directs + c.virtuals:
        code = 'None'
        if m.code:
            units, said = codes[c.name, m.name]
            lines = ['Line { at: %d, units: %d, insn: %s }' % (at, n, text(name)) for at, n, text in said]
            tries = []
            for first, count, (typed, last) in m.code.tries:
                for ty, to in typed:
                    tries.append('Catch { from: %d, to: %d, ty: Some(NameNo(%d)), at: %d }' % (first, first + count, name(ty), to))
                if last is not None:
                    tries.append('Catch { from: %d, to: %d, ty: None, at: %d }' % (first, first + count, last))
            code = 'Some(Code { regs: %d, ins: %d, outs: %d, units: %d, insns: %s, tries: %s })' % (
                m.code.registers, m.code.ins, m.code.outs, units, listed(lines), listed(tries))
        methods.append('MethodDesc { name: NameNo(%d), params: %s, ret: NameNo(%d), flags: %d, code: %s }' % (
            name(m.name), listed(['NameNo(%d)' % name(q) for q in m.params]), name(m.ret), m.flags, code))
    parent = 'Some(NameNo(%d))' % name(c.parent) if c.parent else 'None'
    return 'ClassDesc { file: FileNo(%d), name: NameNo(%d), flags: %d, parent: %s, faces: %s, fields: %s, methods: %s }' % (
        file_no, name(c.name), c.flags, parent, listed(['NameNo(%d)' % name(t) for t in c.faces]), listed(fields), listed(methods))


def every_file():
    units, length, said, places = every_instruction()
    return_void = lambda name: 'ReturnVoid'
    tries = [(0, 2, (((STRING, 3), ('LE;', 4)), 5)), (2, 0, ((), 6)), (2, 3, (((STRING, 3), ('LE;', 4)), 5))]
    short_code = lambda ins: Code(4, ins, 0, [0x000E])
    statics = [
        Field('b', 'B', 9, bytes([0x00, 0x80])), Field('c', 'C', 9, bytes([0x23, 0xFE, 0xFF])), Field('d', 'I', 9, bytes([0x24, 0x00, 0x80])),
        Field('e', 'J', 9, bytes([0x46, 1, 0, 0x80])), Field('g', STRING, 9, ('string', 'hi')), Field('h', 'Ljava/lang/Class;', 9, ('type', '[I')),
        Field('i', 'I', 9, bytes([0x04, 0x00])), Field('k', '[I', 9, bytes([0x1E])), Field('l', 'S', 9, bytes([0x22, 0xFE, 0xFF])),
        Field('m', 'Z', 9, bytes([0x3F])), Field('n', 'Z', 9, bytes([0x1F])), Field('o', 'J', 9),
    ]
    every = Class('LE;', 1, OBJECT, faces=('LI;',), statics=statics, instances=[Field('p', 'J', 2), Field('q', STRING, 1)], directs=[
        Method('<clinit>', (), 'V', 8, short_code(0)),
        Method('<init>', (), 'V', 0x10001, short_code(1)),
        Method('all', (), 'V', 9, Code(40, 0, 5, units, tries, extra_lists=[(((OBJECT, 1),), None)], debug=0xFFFFFFFF)),
        Method('f', ('I', 'J', STRING), 'V', 9, short_code(4)),
        Method('r', (), 'V', 0x1002, short_code(1)),
    ], virtuals=[Method('n', ('J',), 'I', 0x101), Method('v', (), 'V', 1, short_code(1))], source=0xFFFFFFFE, annotations=0xFFFFFFFD)
    face = Class('LI;', 0x601, OBJECT, virtuals=[Method('g', (), 'V', 0x401)])
    file = File([face, every], strings=['\u20ac', 'unused', '\U0001f600', '\ue000'], extra_items=[(0x2003, b'debug'), (0xF000, b'unknown')])
    codes = {('LE;', m): (1, [(0, 1, return_void)]) for m in ('<clinit>', '<init>', 'f', 'r', 'v')}
    codes['LE;', 'all'] = length, said
    return file, codes


def five_file(value=None):
    """The worked file: its main prints what its initialiser sets; the field may have a value of its own besides."""
    units = [0x5012, 0x0067, ('field', 'LT;', 'x', 'I'), 0x000E]
    main_units = [0x0060, ('field', 'LT;', 'x', 'I'), 0x1071, ('method', 'Lpi/Out;', 'print', ('I',), 'V'), 0, 0x000E]
    code = Code(1, 0, 0, units)
    main_code = Code(2, 1, 1, main_units)
    five = Class('LT;', 1, OBJECT, statics=[Field('x', 'I', 8, value)], directs=[
        Method('<clinit>', (), 'V', 0x10008, code), Method('main', ('[' + STRING,), 'V', 9, main_code)])
    file = File([five])
    ref, out = field_text(('LT;', 'x', 'I')), method_text(('Lpi/Out;', 'print', ('I',), 'V'))
    lit = lambda t: (lambda name: t)
    codes = {
        ('LT;', '<clinit>'): (4, [(0, 1, lit('Const { a: 0, v: 5 }')), (1, 2, lambda name: 'Sput { kind: Plain, a: 0, f: %s }' % ref(name)),
                                  (3, 1, lit('ReturnVoid'))]),
        ('LT;', 'main'): (6, [(0, 2, lambda name: 'Sget { kind: Plain, a: 0, f: %s }' % ref(name)),
                              (2, 3, lambda name: 'Invoke { how: Static, m: %s, regs: %s }' % (out(name), listed(['0']))), (5, 1, lit('ReturnVoid'))]),
    }
    return file, codes


def five_dex():
    content = five_file()[0].write()
    assert content == five()
    return content


def value_dex():
    """The worked file, whose field begins as 5 besides, by a value behind all else."""
    data = bytearray(five_dex() + bytes([1, 0x04, 5, 0]))
    for place, number in [(32, len(data)), (104, len(data) - 0x11C), (280, len(data) - 4)]:
        data[place:place + 4] = word(number)
    return sign(data)


def every_dex():
    return every_file()[0].write()


def long_code(count):
    """The worked file, whose initialiser is so many units behind all else: nothing, and a return in the last one."""
    file, codes = five_file()
    file.classes[0].directs[0].code = Code(1, 0, 0, [0] * (count - 1) + [0x0E])
    nothing, void = (lambda name: 'Nop'), (lambda name: 'ReturnVoid')
    said = [(at, 1, nothing) for at in range(count - 1)] + [(count - 1, 1, void)]
    return file, {**codes, ('LT;', '<clinit>'): (count, said)}


def many_file():
    """A file with many members and classes: one class has 600 fields with values and 400 methods, one of which has 200 ranges
    with handlers, and each of 150 others has a field and a method."""
    void = lambda name: 'ReturnVoid'
    short = lambda: Code(1, 0, 0, [0x000E])
    fields = [Field('f%03d' % k, 'I', 9, bytes([0x24, k % 256, k // 256])) for k in range(600)]
    methods = [Method('m%03d' % k, (), 'V', 9, short()) for k in range(400)]
    ranges = [(k, 1, (((STRING, k),), k + 1)) for k in range(200)]
    methods[200].code = Code(1, 0, 0, [0] * 300 + [0x000E], ranges)
    classes = [Class('LM;', 1, OBJECT, statics=fields, directs=methods)]
    for k in range(150):
        statics = [Field('g', 'Z', 9, bytes([0x3F]))]
        classes.append(Class('LN%03d;' % k, 1, OBJECT, statics=statics, directs=[Method('n', (), 'V', 9, short())]))
    codes = {(c.name, m.name): (1, [(0, 1, void)]) for c in classes for m in c.directs}
    codes['LM;', 'm200'] = 301, [(at, 1, lambda name: 'Nop') for at in range(300)] + [(300, 1, void)]
    return File(classes), codes


def overlapped_dex():
    """A file of 20,072 bytes with 1,922 strings, which have four million units, since their texts overlap.

    In each of two runs of bytes a text begins at each third offset or so, with its length as some of the units of the others.
    The strings are in the order of their first two units, and each text of the first run stands before that of the second,
    from which it differs in its last unit alone.
    """
    data = bytearray(five_dex()[:112])
    data[64:112] = bytes(48)
    for place, number in [(32, 20072), (52, 20044), (56, 1922)]:
        data[place:place + 4] = word(number)
    for first in range(31):
        for second in range(1, 32):
            at = 3 * ((4079 - (2 * first + 3 + 128 * second)) // 2) + 1
            data += word(7800 + at) + word(13922 + at)
    for last in b'ab':
        for k in range(2040):
            behind = 4079 - 2 * k
            data += bytes([0xC2, 128 + behind % 64, behind // 128 | (behind < 128)])
        data += bytes([last, 0])
    for number in [2, 0, 1, 0, 1, 1922, 112]:
        data += word(number)
    return sign(data)


def word(number):
    return number.to_bytes(4, 'little')


def half(number):
    return number.to_bytes(2, 'little')


def at(data, place, size=4):
    """The number of so many bytes at a place."""
    return int.from_bytes(data[place:place + size], 'little')


def altered(data, edits):
    """A copy with bytes written over those at places."""
    data = bytearray(data)
    for place, content in edits:
        data[place:place + len(content)] = content
    return bytes(data)


def alter(out, source, edits, *sums):
    """Rows that make a copy of a file of data/ with bytes written over those at places, and then say its length or sums."""
    out.row('case')
    out.row('file', 'a.dex', source)
    for place, content in edits:
        out.row('put', place, bytes(content).hex())
    for verb in sums:
        out.row(verb)


def digest(lines):
    """The one line that stands for many."""
    lines = list(lines)
    return '%d lines %s' % (len(lines), hashlib.sha1(''.join(line + '\n' for line in lines).encode()).hexdigest())
