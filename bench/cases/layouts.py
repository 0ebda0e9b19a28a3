"""Files that are written from tables: their bytes, which dexlayout.py makes, and whether they are read again.

A row is a verb and words: numbers, texts, a Step for a number that is larger each time that the row is followed, and Copies for
so many copies of a text. ('times', COUNT, ROWS) follows rows so many times.
"""

import hashlib
from typing import NamedTuple

from dexfile import Class, Code, Field, File, Method, units_of
from dexlayout import (
    MOST_BYTES, Body, Class as ClassTables, HandlerOffset, Handlers, Layout, Range, Tables, TooLong, tables_of)

from . import made
from .made import OBJECT, STRING

TOO_LONG = 'the file is too long'
HANDLER_OFFSET = 'a list of handlers stands too far from the first'


class Step(NamedTuple):
    first: int
    more: int

    def at(self, time):
        return self.first + self.more * time


class Copies(NamedTuple):
    count: int
    text: str


def digits(text):
    return ''.join('%04x' % unit for unit in units_of(text))


def spelled(word):
    if isinstance(word, Step):
        return '%d+%d' % word
    if isinstance(word, Copies):
        return '%d*%s' % (word.count, digits(word.text))
    return digits(word) if isinstance(word, str) else str(word)


def piece(word, time):
    """What a word of a string means: a number is four units from 0x100 to 0x1ff."""
    if isinstance(word, Step):
        return ''.join(chr(0x100 + byte) for byte in word.at(time).to_bytes(4, 'big'))
    return word.text * word.count if isinstance(word, Copies) else word


class Made:
    """Tables that rows make, and what the next class, code, method and list of handlers have."""

    def __init__(self, rows):
        self.tables = Tables()
        self.next_class, self.next_body, self.code, self.typed = ClassTables(0, 0), Body(0, 0, 0, []), None, []
        for verb, *words in rows:
            count, kept = words if verb == 'times' else (1, [(verb, *words)])
            for time in range(count):
                for row in kept:
                    self.follow(time, *row)

    def follow(self, time, verb, *words):
        t, c, body = self.tables, self.next_class, self.next_body
        if verb == 'string':
            return t.strings.append(''.join(piece(word, time) for word in words))
        n = [word.at(time) if isinstance(word, Step) else word for word in words]
        if verb == 'class':
            c.ty, c.flags, c.faces = n[0], n[1], tuple(n[2:])
            t.classes.append(c)
            self.next_class = ClassTables(0, 0)
        elif verb == 'code':
            body.registers, body.ins, body.outs = n
            self.code, self.next_body = body, Body(0, 0, 0, [])
        elif verb == 'list':
            body.lists.append(Handlers(tuple(self.typed), n[0] if n else None))
            self.typed = []
        elif verb in ('direct', 'virtual'):
            (c.directs if verb == 'direct' else c.virtuals).append((*n, self.code))
            self.code = None
        elif verb == 'parent':
            c.parent, = n
        elif verb == 'value':
            c.values += (tuple(n),)
        elif verb == 'proto':
            t.protos.append((n[0], n[1], n[2:]))
        elif verb == 'units':
            body.units += n
        elif verb == 'fill':
            body.units += [n[1]] * n[0]
        elif verb == 'range':
            body.ranges.append(Range(*n))
        else:
            lists = {'field': t.fields, 'method': t.methods, 'static': c.statics, 'instance': c.instances, 'catch': self.typed}
            t.types.append(*n) if verb == 'type' else lists[verb].append(tuple(n))


def body_rows(body):
    yield 'units', *body.units
    for row in body.ranges:
        yield 'range', *row
    for typed, last in body.lists:
        for handler in typed:
            yield 'catch', *handler
        yield ('list',) if last is None else ('list', last)
    yield 'code', body.registers, body.ins, body.outs


def rows_of(tables):
    """Rows that make tables."""
    for verb, entries in (('string', tables.strings), ('type', tables.types)):
        for entry in entries:
            yield verb, entry
    for short, result, params in tables.protos:
        yield 'proto', short, result, *params
    for verb, entries in (('field', tables.fields), ('method', tables.methods)):
        for entry in entries:
            yield verb, *entry
    for c in tables.classes:
        if c.parent is not None:
            yield 'parent', c.parent
        for verb, entries in (('value', c.values), ('static', c.statics), ('instance', c.instances)):
            for entry in entries:
                yield verb, *entry
        for verb, entries in (('direct', c.directs), ('virtual', c.virtuals)):
            for number, flags, body in entries:
                if body is not None:
                    yield from body_rows(body)
                yield verb, number, flags
        yield 'class', c.ty, c.flags, *c.faces


PUBLIC, STATIC, CONSTRUCTOR, INTERFACE, ABSTRACT, NATIVE = 0x1, 0x8, 0x10000, 0x200, 0x400, 0x100
CLASS = 'Ljava/lang/Class;'
NOP, RETURN_VOID = 0x0000, 0x000E


def all_things():
    """A file with things of every kind, some of which several share."""
    values = [
        ('a', 'B', bytes([0x00, 0x80])), ('b', 'S', bytes([0x22, 0x34, 0x12])), ('c', 'C', bytes([0x03, 0x41])),
        ('d', 'I', bytes([0x44, 1, 2, 0xFF])), ('e', 'J', bytes([0xE6, 1, 2, 3, 4, 5, 6, 7, 8])), ('f', 'Z', bytes([0x3F])),
        ('g', 'Z', bytes([0x1F])), ('h', STRING, ('string', 'hi')), ('i', CLASS, ('type', '[I')), ('j', '[I', bytes([0x1E])), ('k', 'I', None)]

    def statics():
        return [Field(name, ty, PUBLIC | STATIC, value) for name, ty, value in values]

    def code(units, tries=(), ins=1):
        return Code(4, ins, 0, units, tries)

    both, rest = (((STRING, 1), (OBJECT, 2)), None), ((), 3)
    three, other = (((CLASS, 0),), 4), (((CLASS, 0),), None)
    tries = [(0, 1, both), (1, 1, rest), (2, 1, both), (3, 1, three), (4, 0, other), (4, 1, rest)]
    one = Class('LA;', PUBLIC, OBJECT, ('LI;', 'LJ;'), statics(), [Field('l', 'J', 2), Field('m', '[I', 0)], [
        Method('<clinit>', (), 'V', STATIC | CONSTRUCTOR, code([RETURN_VOID], ins=0)),
        Method('<init>', (), 'V', PUBLIC | CONSTRUCTOR, code([NOP, RETURN_VOID])),
        Method('s', ('I', 'LA;'), 'V', STATIC, code([NOP] * 4 + [RETURN_VOID], tries, ins=2)),
    ], [
        Method('native', ('J',), 'I', NATIVE),
        Method('t', ('I', 'LA;'), 'I', PUBLIC, code([NOP] * 5 + [RETURN_VOID], tries, ins=3)),
    ])
    two = Class('LB;', PUBLIC, 'LA;', ('LI;', 'LJ;'), statics())
    three = Class('LC;', PUBLIC | ABSTRACT, OBJECT, ('LJ;',), statics()[:2], virtuals=[Method('u', ('LI;', 'LJ;'), 'V', ABSTRACT)])
    face = Class('LI;', PUBLIC | INTERFACE | ABSTRACT, OBJECT, virtuals=[Method('v', (), 'V', PUBLIC | ABSTRACT)])
    plain = Class('LJ;', PUBLIC | INTERFACE | ABSTRACT, OBJECT)
    texts = ['', '\0', 'a\0b', '\x7f\x80', '\u07ff\u0800', '\ud800', '\uffff', '\U0001f600', 'x' * 127, 'x' * 128, '\u00e4\u4e2d' * 100]
    return File([face, plain, one, two, three], texts)


def written(tables):
    """The file of tables, or None, and what is told of it."""
    try:
        content = Layout(tables).write()
    except TooLong:
        return None, TOO_LONG
    except HandlerOffset:
        return None, HANDLER_OFFSET
    return content, 'ok, %d bytes %s' % (len(content), hashlib.sha1(content).hexdigest())


def case(out, title, rows, rule=None, place=None):
    """A case of tables that are written and then read: what is told of the file, and that it is accepted or breaks a rule at a
    place, which is that of a function on its layout."""
    out.row('case')
    for verb, *words in rows:
        if verb == 'times':
            for row in words[1]:
                out.row('*', row[0], *map(spelled, row[1:]))
            words = words[:1]
        out.row(verb, *map(spelled, words))
    tables = Made(rows).tables
    content, told = written(tables)
    out.under(title)
    out.row('write')
    out.want('%s: %s' % (title, told))
    if content:
        out.row('read')
        out.want('%s: %s' % (title, 'rule %d at %d' % (rule, place(Layout(tables))) if rule else 'accepted'))


def small(*members, more=()):
    """A class `LA;` with these members, and entries of the tables behind those that it needs: the types `I`, `LA;`, Object and
    `V`, a prototype, a field and a method `a`."""
    return [
        ('string', 'I'), ('string', 'LA;'), ('string', OBJECT), ('string', 'V'), ('string', 'a'),
        ('type', 0), ('type', 1), ('type', 2), ('type', 3), ('proto', 3, 3), ('field', 1, 0, 4), ('method', 1, 0, 4),
        *more, ('parent', 2), *members, ('class', 1, PUBLIC)]


def small_code(*rows, units=(RETURN_VOID,), registers=1, more=()):
    """The same with a code for the method."""
    return small(('units', *units), *rows, ('code', registers, 0, 0), ('direct', 0, STATIC), more=more)


def far_list(pairs, longer, is_named=True):
    """A code whose first list of handlers has so many pairs, some of them longer by a byte than two, and stands before another."""
    return [
        ('fill', 128, NOP), ('range', 0, 1, 0), ('range', 1, 1, 1 if is_named else 0),
        ('times', pairs - longer, [('catch', 2, 0)]), ('times', longer, [('catch', 2, 128)]), ('list',), ('list', 0)]


def wide(count):
    """So many of each thing, each class with an interface, members, a value, and a code with a range and a list of handlers."""
    texts = [('string', 'I'), ('string', OBJECT), ('times', count, [('string', 'L', Step(0, 1), ';')])]
    texts += [('string', text) for text in ('V', 'VI', 'VL')]
    texts += [('times', count, [('string', letter, Step(0, 1))]) for letter in 'fm']
    own, void = Step(2, 1), count + 2
    tables = [('type', 0), ('type', 1), ('times', count, [('type', own)]), ('type', void)]
    tables += [('proto', void, void), ('proto', void + 1, void, 0), ('times', count, [('proto', void + 2, void, own)])]
    name = Step(count + 5, 1)
    tables += [('times', count, [('field', own, 0, name), ('field', own, 1, name)])]
    tables += [('times', count, [('method', own, own, Step(2 * count + 5, 1))])]
    field = Step(0, 2)
    classes = [
        ('parent', 1), ('value', 4, 3, Step(0, 1)), ('static', field, PUBLIC | STATIC), ('instance', Step(1, 2), PUBLIC),
        ('units', 0x0060, field, RETURN_VOID), ('range', 0, 2, 0), ('catch', own, 2), ('list', 0), ('code', 2, 1, 0),
        ('direct', Step(0, 1), STATIC), ('class', own, PUBLIC, Step(1, 1))]
    return texts + tables + [('times', count, classes)]


# Tables that are written as they are, and break a rule where they are read: a title, the rule, its place, and rows.
BROKEN = [
    ('a type that is no descriptor', 13, lambda l: l.begins[1] + 4 * 4, small(more=[('type', 4)])),
    ('a short form that is none', 14, lambda l: l.begins[2] + 12, small(more=[('proto', 4, 3, 0)])),
    ('a field of a type that is not there', 15, lambda l: l.begins[3] + 8, small(more=[('field', 1, 77, 4)])),
    ('a method of a prototype that is not there', 16, lambda l: l.begins[4] + 8, small(more=[('method', 2, 77, 4)])),
    ('a superclass that is not there', 17, lambda l: l.begins[5], small(('parent', 77))),
    ('a static field that is not flagged so', 18, lambda l: l.members_at[0], small(('static', 0, PUBLIC))),
    ('two values for a field', 19, lambda l: l.array_at[((4, 0, 1), (4, 0, 2))], small(('value', 4, 0, 1), ('value', 4, 0, 2), ('static', 0, STATIC))),
    ('ranges that overlap', 20, lambda l: l.code_at[0], small_code(('range', 0, 1, 0), ('range', 0, 1, 0), ('list', 0))),
    ('a unit that begins no instruction', 21, lambda l: l.code_at[0] + 18, small_code(units=[NOP, 0x003E])),
    ('a field out of range', 22, lambda l: l.code_at[0] + 18, small_code(units=[NOP, 0x0060, 1])),
    ('a switch with no payload where it points', 23, lambda l: l.code_at[0] + 16, small_code(units=[0x002B, 3, 0, RETURN_VOID])),
]


def shared_things():
    """Lists of types that prototypes and classes share, and values that classes share or that begin as others do."""
    void = lambda name, *params: Method(name, params, 'V', PUBLIC | NATIVE)
    ints = lambda *values: [Field('abc'[k], 'I', STATIC, bytes([4, value])) for k, value in enumerate(values)]
    return File([
        Class('LI;', PUBLIC | INTERFACE | ABSTRACT, OBJECT), Class('LJ;', PUBLIC | INTERFACE | ABSTRACT, OBJECT),
        Class('LA;', PUBLIC, OBJECT, ('LJ;', 'LI;'), ints(1, 2, 3), virtuals=[void('m', 'LI;', 'LJ;'), Method('n', ('LI;', 'LJ;'), 'I', PUBLIC | NATIVE)]),
        Class('LB;', PUBLIC, OBJECT, ('LI;', 'LJ;'), ints(1, 2), virtuals=[void('m', 'LI;', 'LJ;')]),
        Class('LC;', PUBLIC, OBJECT, ('LJ;', 'LI;'), ints(1, 2, 3)),
        Class('LD;', PUBLIC, OBJECT, ('LI;',), ints(1, 2)),
    ])


def rows(out):
    out.note('whole files')
    case(out, 'no table has an entry', [])
    case(out, 'the worked file', list(rows_of(tables_of(made.five_file()[0]))))
    case(out, 'things of every kind', list(rows_of(tables_of(all_things()))))
    case(out, 'every instruction and value', list(rows_of(tables_of(made.every_file()[0]))))
    case(out, 'equal lists of types and equal values stand once', list(rows_of(tables_of(shared_things()))))
    case(out, 'four thousand of each thing', wide(4000))
    out.note('numbers of each width')
    lengths = [0x7F, 0x80, 0x3FFF, 0x4000, 0x1FFFFF, 0x200000]
    case(out, 'strings as long as their numbers have bytes', [('string', Copies(length, chr(98 + k))) for k, length in enumerate(lengths)])
    flags = [STATIC | 1 << bit for bit in (6, 7, 13, 14, 20, 21, 27, 28, 31)]
    more = [('times', len(flags), [('string', 'b', Step(0, 1))]), ('times', len(flags), [('field', 1, 0, Step(5, 1))])]
    case(out, 'flags of each width', small(*[('static', k, flag) for k, flag in enumerate(flags)], more=more))
    more = [('times', 300, [('string', 'b', Step(0, 1))]), ('times', 300, [('method', 1, 0, Step(5, 1))])]
    members = [('virtual', number, PUBLIC | NATIVE) for number in (0, 1, 128, 256, 300)]
    case(out, 'ids that are far behind one another', small(*members, more=more))
    for size in (63, 64, 65):
        for last in ([], [1]):
            lists = [('range', 0, 1, 0), ('times', size, [('catch', 2, 0)]), ('list', *last)]
            case(out, '%d handlers%s' % (size, ' and one for the rest' if last else ''), small_code(*lists, units=[NOP, RETURN_VOID]))
    for count in (127, 128):
        lists = [('times', count, [('range', Step(0, 1), 1, Step(0, 1)), ('list', Step(0, 1))]), ('fill', count, NOP)]
        case(out, '%d lists of handlers' % count, small_code(*lists))
    out.note('tables that break a rule')
    for title, rule, place, broken in BROKEN:
        case(out, title, broken, rule, place)
    out.note('limits')
    case(out, 'a list of handlers at 65,535', small_code(*far_list(32765, 1)))
    case(out, 'a list of handlers at 65,536', small_code(*far_list(32766, 0)))
    case(out, 'a list of handlers at 65,536 that no range has', small_code(*far_list(32766, 0, False)))
    full = lambda count, *rows: small_code(*rows, more=[('string', Copies(count, 'b'))])
    reached, beyond = far_list(32765, 1), far_list(32766, 0)
    room = lambda *rows: MOST_BYTES - Layout(Made(full(0x200000, *rows)).tables).at + 0x200000
    case(out, 'a file of 16,777,216 bytes', full(room(*reached), *reached))
    case(out, 'a file of 16,777,217 bytes', full(room(*reached) + 1, *reached))
    case(out, 'a file of 16,777,216 bytes and a list of handlers at 65,536', full(room(*beyond), *beyond))
    case(out, 'a file of 16,777,217 bytes and a list of handlers at 65,536', full(room(*beyond) + 1, *beyond))
    case(out, 'a code that is too long by itself', small_code(('fill', MOST_BYTES // 2, NOP)))
