"""Files that the classes of programs are written to.

What a file has is worked out from docs/dex-format.md: the classes that a file of dexfile.py says, with what the writer gives them,
as tables that dexlayout.py writes. Programs that break a rule are described by rows, since no file that is read has one.
"""

import hashlib

from dexfile import Class, Code, Field, File, Method, units_of
from dexlayout import Layout, tables_of

from . import made
from .made import OBJECT, W, signed

FULL = 'the classes do not fit a file'
PUBLIC, STATIC = 1, 8
# The files of data/, but for those whose bytes are worked out here. Some have no class, and so the file of no class is written.
OTHERS = ['lookups-before.dex', 'lookups-many.dex', 'lookups-more.dex', 'lookups-one.dex', 'lookups-one-text.dex', 'lookups-texts.dex',
          'lookups-two.dex', 'lookups-two-texts.dex', 'overlapped.dex', 'selected.dex', 'selected-behind.dex', 'selected-many.dex',
          'shared.dex', 'shared-many.dex', 'shared-more.dex', 'shared-one.dex']


def init(f):
    """What sets a field, if anything does: a string, a type, or a number that is not 0."""
    if f.value is None or isinstance(f.value, tuple):
        return f.value
    kind, argument = f.value[0] & 31, f.value[0] >> 5
    number = int.from_bytes(f.value[1:], 'little')
    if kind == 0x1E:
        return None
    if kind == 0x1F:
        number = argument
    elif kind != 3:
        number = signed(number, 8 * (argument + 1)) % (W * W if kind == 6 else W)
    return number or None


def value(file, f):
    """The value of a field: the kind, the argument and the number."""
    what, letter = init(f), f.ty[0]
    if isinstance(what, tuple):
        return (0x17, 3, file.string_no[what[1]]) if what[0] == 'string' else (0x18, 3, file.type_no[what[1]])
    if what is None:
        return {'B': (0, 0, 0), 'S': (2, 1, 0), 'C': (3, 1, 0), 'I': (4, 3, 0), 'J': (6, 7, 0), 'Z': (0x1F, 0, 0)}.get(letter, (0x1E, 0, 0))
    if letter == 'J':
        return 6, 7, what
    if letter == 'B' and -128 <= signed(what, 32) < 128:
        return 0, 0, what % 256
    if letter == 'S' and -32768 <= signed(what, 32) < 32768:
        return 2, 1, what % 65536
    if letter == 'C' and what < 65536:
        return 3, 1, what
    return (0x1F, what, 0) if letter == 'Z' and what < 2 else (4, 3, what)


def rank(member):
    """Members rise by name, then by type, or by result and parameters."""
    ty = [member.ty] if isinstance(member, Field) else [member.ret, *member.params]
    return units_of(member.name), [units_of(t) for t in ty]


def kept(c):
    """A class with what the writer keeps of it: no list that no range has, and no debug information."""
    code = lambda m: m.code and Code(m.code.registers, m.code.ins, m.code.outs, m.code.units, m.code.tries)
    methods = lambda ms: [Method(m.name, m.params, m.ret, m.flags, code(m)) for m in sorted(ms, key=rank)]
    fields = lambda fs: [Field(f.name, f.ty, f.flags, f.value) for f in sorted(fs, key=rank)]
    return Class(c.name, c.flags, c.parent, c.faces, fields(c.statics), fields(c.instances), methods(c.directs), methods(c.virtuals))


def written(classes):
    """The bytes of the file that says classes."""
    file = File([kept(c) for c in classes])
    tables = tables_of(file)
    for c, t in zip(file.classes, tables.classes):
        given = [init(f) is not None for f in c.statics]
        count = len(given) - given[::-1].index(True) if any(given) else 0
        t.values = tuple(value(file, f) for f in c.statics[:count])
    return Layout(tables).write()


def every_class():
    """The classes of the file of every instruction, with the forms that the writer chooses: a list of no registers names none, and
    there is one opcode for both of monitor-enter and monitor-exit, which a program does not tell apart."""
    face, every = made.every_file()[0].classes
    code = [m.code for m in every.directs if m.name == 'all'][0]
    units = list(code.units)
    empty = units.index(0x0F24)
    assert units[empty + 2] == 0xFFFF and units.count(0x0F24) == 1 and units.count(0x111E) == 1
    units[empty], units[empty + 2] = 0x0024, 0
    units[units.index(0x111E)] = 0x111D
    code.units = units
    return [face, every]


def told(classes):
    content = written(classes)
    return 'ok, %d bytes %s' % (len(content), hashlib.sha1(content).hexdigest())


def case(out, title, rows, *wanted):
    """A case: rows, and what each verb behind them tells."""
    out.row('case')
    for row in rows:
        out.row(*row)
    out.under(title)
    for verb, answer in wanted:
        out.row(verb)
        out.want('%s: %s' % (title, answer))


def whole(out, title, files, classes):
    """Files whose classes are written as those bytes, which are read, and written as the same bytes again."""
    rows = [('file', 'a.dex', name) for name in files]
    case(out, title, rows, ('write', told(classes)), ('read', 'accepted'), ('again', 'the same'))


# The names of the small programs below, by their places.
NAMES = ['LA;', OBJECT, 'V', 'I', 'a', 'Q', '<a>', 'LB;', 'a;']
A, OBJ, VOID, INT, SMALL, BAD, ANGLED, B, MARKED = range(len(NAMES))
RETURN = [('line', 0, 1, 'void'), ('code', 1, 0, 0, 1)]
METHOD = 'method', SMALL, VOID, STATIC


def program(*members, parent=OBJ, more=()):
    """A class `LA;` below Object with these members, and what stands behind it."""
    return [('name', name) for name in NAMES] + [*members, ('parent', parent), ('class', A, PUBLIC), *more]


def switch(*cases, keys=False):
    """A method with a switch on register 0, whose payload stands at 4 behind its return."""
    count = len(cases) // 2
    size = 2 + 4 * count if keys else 4 + 2 * count
    return [('line', 0, 3, 'switch', *cases), ('line', 3, 1, 'void'), ('code', 1, 0, 0, 4 + size)]


# Programs that break one rule: a title, the rule, and rows.
BROKEN = [
    ('a type that is none', 13, program(('line', 0, 2, 'type', BAD), ('line', 2, 1, 'void'), ('code', 1, 0, 0, 3), METHOD)),
    ('a parameter of no value', 14, program(*RETURN, ('method', SMALL, VOID, STATIC, VOID))),
    ('a field with marks in its name', 15, program(('field', MARKED, INT, STATIC))),
    ('a method whose name is in angles', 16, program(*RETURN, ('method', ANGLED, VOID, STATIC))),
    ('a class that is its own superclass', 17, program(parent=A)),
    ('a class twice', 17, program(more=[('parent', OBJ), ('class', A, PUBLIC)])),
    ('a method with neither code nor a flag for none', 18, program(METHOD)),
    ('a field twice', 18, program(('field', SMALL, INT, STATIC), ('field', SMALL, INT, STATIC))),
    ('a long for an int', 19, program(('value', 'long', 5), ('field', SMALL, INT, STATIC))),
    ('an argument word too many', 20, program(('line', 0, 1, 'void'), ('code', 1, 1, 0, 1), METHOD)),
    ('a handler past the end', 20, program(('line', 0, 1, 'void'), ('catch', 0, 1, 1), ('code', 1, 0, 0, 1), METHOD)),
    ('keys that fall', 23, program(*switch(3, 0, 1, 3, keys=True), METHOD)),
    ('keys that follow each other past the largest, listed as sparse', 23,
     program(*switch(0x7FFFFFFF, 0, 0x80000000, 3, keys=True), ('keys', 0), METHOD)),
]


def switch_class(units):
    """The class of the programs with a switch."""
    return Class('LA;', PUBLIC, OBJECT, directs=[Method('a', (), 'V', STATIC, Code(1, 0, 0, units))])


def halves(*numbers):
    return [half for number in numbers for half in (number % 65536, number // 65536 % 65536)]


def rows(out):
    out.note('the classes of files')
    five, every = made.five_file()[0].classes, every_class()
    whole(out, 'the worked file', ['five.dex'], five)
    whole(out, 'a field with a value', ['value.dex'], made.five_file(bytes([0x04, 5]))[0].classes)
    whole(out, 'every instruction and value', ['every.dex'], every)
    whole(out, 'the worked file and behind it every instruction', ['five.dex', 'every.dex'], [*five, *every])
    whole(out, 'many members and classes', ['many.dex'], made.many_file()[0].classes)
    for name in OTHERS:
        case(out, name, [('file', 'a.dex', name)], ('build', 'ok'), ('read', 'accepted'), ('again', 'the same'))
    case(out, 'no class', [], ('write', told([])), ('read', 'accepted'))
    case(out, 'a class twice, of two programs', [('file', 'a.dex', 'five.dex'), ('file', 'b.dex', 'five.dex')], ('build', 'ok'), ('read', 'rule 17'))
    out.note('programs that break one rule')
    for title, rule, described in BROKEN:
        case(out, title, described, ('build', 'ok'), ('read', 'rule %d' % rule))
    out.note('switches')
    packed, sparse = [0x0100, 2, *halves(5, 3, 0)], [0x0200, 2, *halves(5, 6, 3, 0)]
    body = lambda op, payload: [op, 4, 0, 0x000E, *payload]
    for title, listed, units in (
            ('keys that follow each other', [], body(0x2B, packed)), ('the same, listed as sparse', [('keys', 0)], body(0x2C, sparse))):
        described = program(*switch(5, 3, 6, 0, keys=bool(listed)), *listed, METHOD)
        case(out, title, described, ('write', told([switch_class(units)])), ('read', 'accepted'), *([] if listed else [('again', 'the same')]))
    out.note('what cannot be written')
    refused = 'class 0 cannot be written'
    for title, described in (
            ('a field of instances that is set', program(('value', 'word', 5), ('field', SMALL, INT, PUBLIC))),
            ('a field that is set to 0', program(('value', 'word', 0), ('field', SMALL, INT, STATIC))),
            ('an instruction longer than any of its forms', program(('line', 0, 2, 'void'), ('code', 1, 0, 0, 2), METHOD)),
            ('units behind all instructions', program(('line', 0, 1, 'void'), ('code', 1, 0, 0, 2), METHOD)),
            ('an instruction behind a gap', program(('line', 1, 1, 'void'), ('code', 1, 0, 0, 2), METHOD)),
            ('a payload where none is expected', program(('line', 0, 3, 'switch', 5, 3), ('line', 3, 1, 'void'), ('code', 1, 0, 0, 11), METHOD)),
            ('a range that ends before it begins', program(*RETURN[:1], ('catch', 1, 0, 0), ('code', 1, 0, 0, 1), METHOD))):
        case(out, title, described, ('build', refused))
    out.note('limits')
    for title, count, answer in (('65,535 types', 65533, 'ok'), ('65,536 types', 65534, 'class 0: ' + FULL)):
        case(out, title, [*program()[:len(NAMES)], ('names', count), ('faces', count), ('parent', OBJ), ('class', A, PUBLIC)], ('build', answer))
    types = [('names', 65533), ('faces', 65533), ('parent', OBJ), ('class', A, PUBLIC), ('parent', OBJ), ('class', B, PUBLIC)]
    case(out, '65,536 types with the second class', [*program()[:len(NAMES)], *types], ('build', 'class 1: ' + FULL))
