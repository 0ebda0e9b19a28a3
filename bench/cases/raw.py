"""The tables of files: what they lend, and which rule on them is broken.

The tables below are about copies of the worked file of 612 bytes: its strings stand from 112 on, the types from 160, the
prototypes from 184, the field at 220, the methods from 228, the class at 252, parameters at 336 and 344, texts from 350 on,
and the map at 464.
"""

import hashlib

from dexfile import sign

from . import made
from .made import alter, altered, at, digest, half, word
from .rows import told
from .units import told_units

# Copies that are signed anew: what is written over, behind the rule that is told and its place.
BROKEN = [
    ('string ids at no multiple of four', 8, 56, (60, word(113))),
    ('type ids that begin in the header', 8, 64, (68, word(108))),
    ('proto ids past the end', 8, 72, (76, word(608))),
    ('the greatest number of strings', 8, 56, (56, word(0xffffffff))),
    ('the greatest number of types', 8, 64, (64, word(0xffffffff))),
    ('the greatest number of prototypes', 8, 72, (72, word(0xffffffff))),
    ('the greatest number of fields', 8, 80, (80, word(0xffffffff))),
    ('the greatest number of methods', 8, 88, (88, word(0xffffffff))),
    ('the greatest number of class definitions', 8, 96, (96, word(0xffffffff))),
    ('two tables that do not hold, of which the lower place is told', 8, 56, (56, word(0xffffffff)), (64, word(0xffffffff))),
    ('the greatest size of the data', 9, 104, (104, word(0xffffffff))),
    ('data past the end', 9, 104, (104, word(329))),
    ('the map at no multiple of four', 10, 52, (52, word(466))),
    ('the map past the end', 10, 52, (52, word(612))),
    ('offsets that do not rise', 10, 52, (584, word(336))),
    ('a kind of item twice', 10, 52, (576, half(0x1001))),
    ('no header among the items', 10, 52, (468, half(0x2003))),
    ('another size of a table', 10, 52, (496, word(5))),
    ('a table that is not among the items', 10, 52, (540, half(0x2003))),
    ('call sites', 10, 52, (564, half(7))),
    ('method handles', 10, 52, (564, half(8))),
    ('one item more than there is room for', 10, 52, (464, word(13))),
    ('the greatest number of items', 10, 52, (464, word(0xffffffff))),
    ('a table that reaches into the next one', 10, 52, (56, word(13)), (484, word(13))),
    ('a byte that begins no unit', 11, 148, (431, b'\x80')),
    ('no 0 behind a text', 11, 148, (435, b'x')),
    ('a text past the end', 11, 112, (112, word(612))),
    ('fewer units than a text has', 11, 112, (350, b'\x07')),
    ('more units than a text has', 11, 112, (350, b'\t')),
    ('two strings with one text, and a later one without', 11, 148, (116, word(350)), (435, b'x')),
    ('two strings at one offset without a text', 11, 148, (152, word(430)), (435, b'x')),
    ('the same, with others between them', 11, 116, (116, word(430)), (431, b'\x80')),
    ('strings 0 and 1 exchanged', 12, 116, (112, word(360)), (116, word(350))),
    ('equal strings', 12, 116, (116, word(350))),
    ('strings that rise by their bytes and not by their units', 12, 116, (351, b'\x01'), (116, word(430)), (430, b'\x03\xc0\x80')),
    ('a type without a string', 13, 180, (180, word(12))),
    ('types that do not rise', 13, 164, (160, word(2)), (164, word(1))),
    ('a name as a type', 13, 180, (180, word(9))),
    ('an empty first part of a name', 13, 180, (412, b'/')),
    ('an empty part between two others', 13, 180, (417, b'/')),
    ('an empty last part', 13, 180, (427, b'/')),
    ('a mark in a part', 13, 180, (413, b'.')),
    ('a name without an end', 13, 180, (428, b'x')),
    ('units behind a primitive', 13, 180, (411, b'I')),
    ('a short form without a string', 14, 184, (184, word(12))),
    ('a result that is no type', 14, 184, (188, word(6))),
    ('a short form with another result', 14, 184, (184, word(1))),
    ('parameters at no multiple of four', 14, 196, (204, word(337))),
    ('a short form with another parameter', 14, 196, (340, half(5))),
    ('a short form without a parameter', 14, 196, (196, word(5))),
    ('a parameter that is no type', 14, 196, (340, half(6))),
    ('prototypes that do not rise', 14, 208, (196, word(7)), (204, word(344)), (208, word(6)), (216, word(336))),
    ('V as a parameter', 14, 196, (340, half(4))),
    ('equal prototypes', 14, 196, (196, word(5)), (204, word(0))),
    ('a field of an int', 15, 220, (220, half(0))),
    ('a field of type V', 15, 220, (222, half(4))),
    ('a field with marks in its name', 15, 220, (224, word(2))),
    ('a field without a class', 15, 220, (220, half(6))),
    ('a field without a name', 15, 220, (224, word(12))),
    ('fields that do not rise', 15, 228, (80, word(2)), (520, word(2)), (88, word(2)), (532, word(2)), (92, word(236)), (536, word(236))),
    ('a method of an int', 16, 228, (228, half(0))),
    ('a method without a prototype', 16, 228, (230, half(3))),
    ('a method without a class', 16, 228, (228, half(6))),
    ('a method without a name', 16, 228, (232, word(12))),
    ('a name that is neither that of a constructor nor of an initialiser', 16, 228, (358, b'x')),
    ('an empty name', 16, 228, (350, half(0))),
    ('equal methods', 16, 236, (236, b'\x01\x00\x00\x00\x00\x00\x00\x00')),
    ('methods that do not rise', 16, 244, (244, half(1)), (246, half(0)), (248, word(9))),
    ('a definition of an int', 17, 252, (252, word(0))),
    ('a class without a superclass', 17, 252, (260, word(0xffffffff))),
    ('a class that is its own superclass', 17, 252, (260, word(1))),
    ('a class that is no type', 17, 252, (252, word(6))),
    ('a superclass that is no type', 17, 252, (260, word(6))),
    ('Object with a superclass', 17, 252, (252, word(2)), (260, word(3))),
    ('interfaces past the end', 17, 252, (264, word(612))),
    ('interfaces at no multiple of four', 17, 252, (264, word(337))),
    ('an int as an interface', 17, 252, (264, word(336))),
    ('two rules, of which the lower number is told', 9, 104, (104, word(329)), (52, word(466))),
    ('two rules at two tables', 15, 220, (220, half(0)), (252, word(0))),
    ('one rule at two places, of which the lower is told', 11, 124, (435, b'x'), (369, b'\x80')),
]

# Copies whose sums are not made again.
HEADER = [
    ('another version', 2, 0, (6, b'6')),
    ('another order of bytes', 3, 40, (40, b'\x12')),
    ('another size of the header', 4, 36, (36, b'q')),
    ('another length', 5, 32, (32, b'c')),
    ('the greatest size of the header', 4, 36, (36, word(0xffffffff))),
    ('the greatest length of the file', 5, 32, (32, word(0xffffffff))),
    ('a checksum without its first byte', 6, 8, (8, b'\x00')),
    ('another version and another order of bytes, of which the lower rule is told', 2, 0, (6, b'6'), (40, b'\x12')),
]

# What is written over, where the file stays good.
GOOD = [
    ('the greatest size of what is linked, which no rule reads', (44, word(0xffffffff))),
    ('strings that rise by their units and not by their bytes', (350, b'\x07\xc0\x80')),
    ('a method with the name of a constructor', (350, b'\x06<init>\x00')),
    ('a method of an array', (244, half(5))),
    ('Object without a superclass', (252, word(2)), (260, word(0xffffffff))),
]

# Three classes, of which the later two have one list of interfaces, with the first class alone.
THREE = [
    (96, word(3)), (544, word(3)), (560, word(348)), (572, word(349)),
    (252, word(2)), (260, word(0xffffffff)), (268, b'\x01\x00\x00\x00\x02\x00'), (284, word(1)),
    (292, word(2)), (296, word(268)), (316, word(3)), (324, word(2)),
    (328, word(268)),
]

# What is written over the file of three classes, behind the rule that is told and its place.
SHARED = [
    ('an interface that is defined later', 17, 284, (272, half(3))),
    ('a class that is its own interface', 17, 284, (272, half(1))),
    ('an interface twice', 17, 284, (268, b'\x02\x00\x00\x00\x02\x00\x02\x00')),
    ('a class that was defined before, with a list that holds', 17, 316, (316, word(1))),
    ('a list of the last class alone, with that class', 17, 316, (296, word(0)), (272, half(3))),
]

# The tables of entries: where the size stands, and the bytes of an entry.
WIDTHS = [('type', 64, 4), ('prototype', 72, 12), ('field', 80, 8), ('method', 88, 8), ('class', 96, 32)]


def units_in(text):
    """The units that bytes of MUTF-8 spell."""
    place = 0
    while place < len(text):
        size = 1 if text[place] < 0xC0 else 2 if text[place] < 0xE0 else 3
        first, *further = text[place:place + size]
        unit = first if size == 1 else first % (128 >> size)
        for byte in further:
            unit = unit << 6 | byte & 0x3F
        yield unit
        place += size


def texts(data):
    """The bytes of each string, and its units, of which there are fewer than 16,384."""
    for k in range(at(data, 56)):
        place = at(data, at(data, 60) + 4 * k)
        place += 1 if data[place] < 128 else 2
        text = data[place:data.index(0, place)]
        yield text, list(units_in(text))


def sizes(data):
    return '%d strings, %d types, %d prototypes, %d fields, %d methods, %d classes' % tuple(at(data, 56 + 8 * k) for k in range(6))


def told_sizes(data):
    all_texts = list(texts(data))
    return '%s, %d bytes and %d units' % (sizes(data), sum(len(b) for b, _ in all_texts), sum(len(u) for _, u in all_texts))


def lent(data):
    """All lines that a file is told by."""
    yield sizes(data)
    yield '%d bytes %s' % (len(data), hashlib.sha1(data).hexdigest())
    for k, (text, units) in enumerate(texts(data)):
        yield 'string %d %s of units %s' % (k, told(text), told_units(units))
    for table, place, width in WIDTHS:
        for k in range(at(data, place)):
            entry = at(data, place + 4) + width * k
            yield '%s %d %s' % (table, k, data[entry:entry + width].hex())


def limits():
    """Copies with something long behind all else: titles, what is written over, and the rule that is told and its place."""
    for count, answer in [(255, None), (256, (13, 180))]:
        text = made.uleb(count + 1) + b'[' * count + b'I\0'
        yield '%d dimensions' % count, [(144, word(612)), (612, text)], answer
    for count, answer in [(255, None), (256, (14, 208))]:
        parameters = word(count) + bytes(2 * count)
        text = made.uleb(count + 1) + b'V' + b'I' * count + b'\0'
        yield '%d ints' % count, [(216, word(612)), (140, word(612 + len(parameters))), (612, parameters + text)], answer


def broken(out, title, rule, place):
    out.under(title)
    out.row('raw')
    out.want('%s: rule %d at %d' % (title, rule, place))


def whole(out, title, data):
    out.under(title)
    out.row('sizes')
    out.want('%s: %s' % (title, told_sizes(data)))


def lend(out, title, source, data):
    alter(out, source, [])
    out.under(title)
    out.row('raw')
    for line in lent(data):
        out.want('%s: %s' % (title, line))


def large(out, title, source, data):
    alter(out, source, [])
    out.under(title, '-digest')
    out.row('raw')
    out.want('%s: %s' % (title, digest(lent(data))))
    whole(out, title + ', its sizes', data)


def rows(out):
    five, many, overlapped = made.five_dex(), made.many_file()[0].write(), made.overlapped_dex()
    out.data('many.dex', many)
    out.data('overlapped.dex', overlapped)
    out.note('what tables lend')
    lend(out, 'the tables of the worked file', 'five.dex', five)
    lend(out, 'the tables of the file of every instruction', 'every.dex', made.every_dex())
    large(out, 'the tables of many members', 'many.dex', many)
    out.note('one rule is broken, or two')
    for title, rule, place, *edits in BROKEN:
        alter(out, 'five.dex', edits, 'sign', 'sum')
        broken(out, title, rule, place)
    for title, rule, place, *edits in HEADER:
        alter(out, 'five.dex', edits)
        broken(out, title, rule, place)
    alter(out, 'five.dex', [(12, b'\0')], 'sum')
    broken(out, 'a signature without its first byte', 7, 12)
    out.note('each front of the header, and the file without its last byte')
    for length in range(112):
        alter(out, 'five.dex', [])
        out.row('cut', length)
        broken(out, 'a front of %d bytes' % length, 1, length)
    alter(out, 'five.dex', [])
    out.row('cut', 611)
    broken(out, 'a file without its last byte', 5, 32)
    out.note('altered files that are good')
    for title, *edits in GOOD:
        alter(out, 'five.dex', edits, 'sign', 'sum')
        whole(out, title, altered(five, edits))
        # the sums that the program has made are those of zlib and hashlib
        out.under(title + ', all lines', '-digest')
        out.row('raw')
        out.want('%s, all lines: %s' % (title, digest(lent(sign(altered(five, edits))))))
    out.note('three classes')
    alter(out, 'five.dex', THREE, 'sign', 'sum')
    whole(out, 'classes that share a list', altered(five, THREE))
    for title, rule, place, *edits in SHARED:
        alter(out, 'five.dex', THREE + edits, 'sign', 'sum')
        broken(out, title, rule, place)
    out.note('limits')
    for title, edits, answer in limits():
        alter(out, 'five.dex', edits, 'length', 'sign', 'sum')
        if answer:
            broken(out, title, *answer)
        else:
            whole(out, title, altered(five, edits))
    out.note('texts that overlap')
    alter(out, 'overlapped.dex', [])
    whole(out, 'texts that overlap', overlapped)
    # the last two exchanged, which differ in their last unit alone
    alter(out, 'overlapped.dex', [(7792, word(13995)), (7796, word(7873))], 'sign', 'sum')
    broken(out, 'texts that overlap, of which two are exchanged', 12, 7796)
