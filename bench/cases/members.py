"""The members and the static values of classes, and the bits of flags."""

from . import made
from .made import alter, at, digest

LISTS = ['static', 'instance', 'direct', 'virtual']

# The member rows of the worked file whose field has a value, by hand.
WORKED = [
    'class 0', 'static MemberRow { id: 0, flags: 8, code: 0 }', 'direct MemberRow { id: 0, flags: 65544, code: 284 }',
    'direct MemberRow { id: 1, flags: 9, code: 308 }',
    'members broken at None', 'values broken at None',
    'values of class 0: Some(Listed { items: [EncodedValue { kind: 4, arg: 0, number: 5 }] })']

# Copies of the worked file: what is written over, and how they are told.
BROKEN = [
    ('members of which a static field is not static', [(451, b'\x00')], [
        'class 0: no members', 'members broken at Some(446)', 'values broken at Some(612)', 'values of class 0: None']),
    ('values of which a long is for an int', [(613, b'\x06')], WORKED[:5] + ['values broken at Some(612)', 'values of class 0: None']),
    ('a value more than fields', [(612, b'\x02')], WORKED[:5] + ['values broken at Some(612)', 'values of class 0: None']),
]

FLAGS = [('public', 1), ('private', 2), ('static', 8), ('native', 0x100), ('interface', 0x200), ('abstract', 0x400), ('constructor', 0x10000)]

NUMBERS = [('the flags of a constructor', 0x10009), ('no flags', 0), ('all flags', 0xFFFFFFFF), ('the flags that have no name', 0xFFFEF8F4)]


class Places:
    """Numbers one behind the other."""

    def __init__(self, data, place):
        self.data, self.place = data, place

    def fixed(self, size):
        self.place += size
        return at(self.data, self.place - size, size)

    def uleb(self):
        number = shift = 0
        while True:
            byte = self.fixed(1)
            number |= byte % 128 << shift
            shift += 7
            if byte < 128:
                return number


def lists(data, place):
    """The four lists of class data that holds, each row of number, flags and code."""
    if not place:
        return [[], [], [], []]
    places, found = Places(data, place), []
    counts = [places.uleb() for _ in LISTS]
    for count, has_code in zip(counts, [False, False, True, True]):
        rows, number = [], 0
        for _ in range(count):
            number += places.uleb()
            flags = places.uleb()
            rows.append((number, flags, places.uleb() if has_code else 0))
        found.append(rows)
    return found


def values(data, place):
    """Static values that hold."""
    if not place:
        return
    places = Places(data, place)
    for _ in range(places.uleb()):
        head = places.fixed(1)
        kind, argument = head % 32, head // 32
        yield kind, argument, places.fixed(0 if kind in (0x1E, 0x1F) else argument + 1)


def members(data):
    """All lines by which a file that breaks no rule is told."""
    classes = [at(data, 100) + 32 * k for k in range(at(data, 96))]
    for k, place in enumerate(classes):
        yield 'class %d' % k
        for name, rows in zip(LISTS, lists(data, at(data, place + 24))):
            for row in rows:
                yield '%s MemberRow { id: %d, flags: %d, code: %d }' % (name, *row)
    yield 'members broken at None'
    yield 'values broken at None'
    for k, place in enumerate(classes):
        spelled = ', '.join('EncodedValue { kind: %d, arg: %d, number: %d }' % value for value in values(data, at(data, place + 28)))
        yield 'values of class %d: Some(Listed { items: [%s] })' % (k, spelled)


def tell(out, title, lines):
    out.under(title)
    out.row('members')
    for line in lines:
        out.want('%s: %s' % (title, line))


def rows(out):
    value = made.value_dex()
    out.data('value.dex', value)
    assert list(members(value)) == WORKED
    out.note('members and values')
    alter(out, 'value.dex', [])
    tell(out, 'members of the worked file', WORKED)
    alter(out, 'every.dex', [])
    tell(out, 'members of every kind', members(made.every_dex()))
    alter(out, 'many.dex', [])
    out.under('the members of many', '-digest')
    out.row('members')
    out.want('the members of many: ' + digest(members(made.many_file()[0].write())))
    for title, edits, lines in BROKEN:
        alter(out, 'value.dex', edits, 'sign', 'sum')
        tell(out, title, lines)
    alter(out, 'value.dex', [(260, made.word(1))], 'sign', 'sum')
    tell(out, 'tables of which a rule is broken', ['rule 17 at 252'])
    out.note('flags')
    for title, number in NUMBERS + [('the flag ' + name, bit) for name, bit in FLAGS]:
        out.under(title)
        out.row('flags', number)
        out.want(' '.join([title + ': flags'] + [name for name, bit in FLAGS if number & bit]))
