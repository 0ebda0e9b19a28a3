"""Files one behind the other: what program they say, and which rule a file breaks.

A program is told by its size, by the types of each file, by its classes and by its names. Behind a refusal its size is told,
which is that of the files before.
"""

from dexfile import sign

from . import made, shared
from .made import STRING, W, alter, altered, class_text, digest, half, listed, word
from .units import told_units

# Copies of the worked file whose field has a value: what is written over, behind the rule that is told and its place.
BROKEN = [
    ('another version', 2, 0, (6, b'6')),
    ('a class that is its own superclass', 17, 252, (260, b'\x01')),
    ('a static field that is not flagged so', 18, 446, (451, b'\0')),
    ('the long 5 for an int', 19, 612, (613, b'\x06')),
    ('an argument word of a method that takes none', 20, 284, (286, b'\x01')),
    ('two methods with an argument word too many, of which the lower is told', 20, 284, (286, b'\x01'), (310, b'\x02')),
    ('an opcode that there is not', 21, 306, (306, b'\x3e')),
    ('the second of one field', 22, 302, (304, b'\x01')),
    ('a switch with no payload where it points', 23, 302, (302, b'\x2b\0\x05\0\0\0')),
    ('an index out of range, and an opcode that there is not', 21, 334, (304, b'\x01'), (334, b'\x3e')),
    ('a broken value and a broken code', 19, 612, (613, b'\x06'), (286, b'\x01')),
]


def broken_every():
    """Copies of the file of every instruction: a title, what is written over with sums that fit, the rule and its place."""
    file, data = made.every_file()[0], made.every_dex()
    length, places = places_of_every()
    file.write()
    at = file.places
    item = at['LE;->all']
    unit = lambda u: item + 16 + 2 * u
    data_at, values_at, i_data = at['LE; data'], at['LE; values'], at['LI; data']
    tries, lists = at['LE;->all tries'], at['LE;->all lists']
    e_def = at['LE; def']
    out = []

    def row(why, rule, place, *edits):
        sums = sign(altered(data, edits))[8:32]
        out.append((why, list(edits) + [(8, sums)], rule, place))

    flags = lambda m: at['LE;->' + m + ' flags']
    row('class data outside of the file', 18, len(data), (e_def + 24, word(len(data))))
    row('class data at no place at all', 18, 0xFFFFFFFF, (e_def + 24, word(0xFFFFFFFF)))
    row('more rows than there are', 18, data_at, (data_at, [0x7F]))
    row('a static field that is not static', 18, data_at, (flags('b'), [1]))
    row('an instance field that is static', 18, data_at, (flags('p'), [8]))
    row('a field twice in a list', 18, data_at, (at['LE;->c row'], [0]))
    row('a field in both lists', 18, data_at, (at['LE;->p row'], [file.field_no[('LE;', 'b', 'B')]]))
    row('a field that is not there', 18, data_at, (at['LE;->q row'], [0x7F]))
    row('a method that is not there', 18, data_at, (at['LE;->v row'], [0x7F]))
    row('a method of another class', 18, i_data, (at['LI;->g row'], [file.method_no[('LE;', 'f', ('I', 'J', STRING), 'V')]]))
    row('a method in both lists', 18, data_at, (at['LE;->n row'], [file.method_no[('LE;', 'all', (), 'V')]]))
    row('a virtual method that is static', 18, data_at, (flags('v'), [8]))
    row('a virtual method that is private', 18, data_at, (flags('v'), [2]))
    row('a direct method that is none', 18, data_at, (flags('f'), [1]))
    row('an abstract direct method', 18, data_at, (flags('r'), [0x82, 0x08]), (at['LE;->r code'], [0x80, 0x00]))
    row('code of a native method', 18, data_at, (at['LE;->n code'], [1]))
    row('no code', 18, data_at, (flags('n'), [0x81, 0x00]))
    row('an initialiser that is not static', 18, data_at, (flags('<clinit>'), [2]))
    row('a constructor without its flag', 18, data_at, (flags('<init>'), [0x81, 0x80, 0x00]))
    row('an interface method that is not abstract', 18, i_data, (at['LI;->g flags'], [0x81, 0x02]))
    row('an interface with the fields of a class', 18, data_at, (e_def + 4, word(0x601)))
    row('values outside of the file', 19, len(data), (e_def + 28, word(len(data))))
    row('more values than static fields', 19, values_at, (values_at, [13]))
    row('values that are cut', 19, len(data) - 3, (e_def + 28, word(len(data) - 3)))
    value = lambda f: at['LE;->%s value' % f]
    for f, head in (('b', 0x20), ('c', 0x43), ('d', 0x84), ('g', 0x97), ('h', 0x98), ('k', 0x3E), ('l', 0x42), ('m', 0x5F)):
        row('too many bytes for %s' % f, 19, values_at, (value(f), [head]))
    row('an int for a byte', 19, values_at, (value('b'), [0x04]))
    row('a byte for a boolean', 19, values_at, (value('m'), [0x00]))
    row('null for a boolean', 19, values_at, (value('m'), [0x1E]))
    row('a string that is not there', 19, values_at, (value('g') + 1, [0x7F]))
    row('a class that is not there', 19, values_at, (value('h') + 1, [0x7F]))
    row('the class of a primitive', 19, values_at, (value('h') + 1, [file.type_no['B']]))
    row('an array as a value', 19, values_at, (value('b'), [0x1C]))
    row('fewer argument words', 20, at['LE;->f'], (at['LE;->f'] + 2, half(3)))
    row('more argument words than registers', 20, at['LE;->f'], (at['LE;->f'], half(3)))
    row('no unit', 20, at['LE;->v'], (at['LE;->v'] + 12, word(0)))
    row('units outside of the file', 20, item, (item + 12, word(len(data))))
    row('ranges that overlap', 20, item, (tries + 8, word(1)))
    row('a range past the end', 20, item, (tries + 16, word(length - 2)))
    row('a list that is none', 20, item, (tries + 6, half(2)))
    row('a type that is not there, in a list that no range has', 20, item, (lists + 1 + len_of(lists_of(file)[:2]) + 1, [0x7F]))
    row('a handler past the end', 20, item, (lists + 3, [0xFF]), (lists + 4, [0x7F]))
    row('more lists than there are', 20, item, (lists, [0x7F]))
    row('no instruction', 21, unit(0), (unit(0), [0x3E]))
    row('a nop with a high byte', 21, unit(0), (unit(0) + 1, [4]))
    row('six registers', 21, unit(places['filled']), (unit(places['filled']) + 1, [0x60]))
    row('the last payload is cut', 21, unit(places['sparse data']), (unit(places['sparse data']) + 2, [3]))
    row('a string out of range', 22, unit(places['string']), (unit(places['string']) + 2, half(len(file.strings))))
    row('a jumbo string out of range', 22, unit(places['jumbo']), (unit(places['jumbo']) + 4, half(1)))
    row('a type out of range', 22, unit(places['type']), (unit(places['type']) + 2, half(len(file.types))))
    row('a field out of range', 22, unit(places['field']), (unit(places['field']) + 2, half(len(file.fields))))
    row('a method out of range', 22, unit(places['method']), (unit(places['method']) + 2, half(len(file.methods))))
    far = lambda name, d: (unit(places[name]) + 2, word((places[name + ' data'] - places[name] + d) % W))
    row('inside a payload', 23, unit(places['fill']), far('fill', 4))
    row('before the payload', 23, unit(places['packed']), far('packed', -1))
    row('before the code', 23, unit(places['sparse']), (unit(places['sparse']) + 2, word(0x80000000)))
    row('a payload of another kind', 23, unit(places['packed']), (unit(places['packed']) + 2, word(places['sparse data'] - places['packed'])))
    row('equal keys', 23, unit(places['sparse']), (unit(places['sparse data']) + 8, word(0xFFFFFFFF)))
    row('keys that fall', 23, unit(places['sparse']), (unit(places['sparse data']) + 4, word(10)))
    row('a payload at an odd unit', 23, unit(0), odd_payload(unit))
    row('two broken rules, of which the lower is told', 18, data_at, (flags('b'), [1]), (values_at, [13]))
    row('two broken places, of which the lower is told', 21, unit(0), (unit(0), [0x3E]), (unit(1), [0x3E]))
    return out


def lists_of(file):
    every = file.classes[1]
    code = [m.code for m in every.directs if m.name == 'all'][0]
    seen = []
    for h in [h for _, _, h in code.tries] + code.extra_lists:
        key = (tuple(h[0]), h[1])
        if key not in seen:
            seen.append(key)
    return seen


def len_of(lists):
    total = 0
    for typed, last in lists:
        total += 1 + 2 * len(typed) + (last is not None)
    return total


def odd_payload(unit):
    # a packed switch at unit 0, whose payload of no case stands at unit 3
    return (unit(0), b'\x2b\x00\x03\x00\x00\x00\x00\x01\x00\x00\x00\x00\x00\x00')


def places_of_every():
    """The number of units of the long code, and at which of them instructions of some kinds stand."""
    units, length, said, places = made.every_instruction()
    texts = [(at, text(lambda name: 0)) for at, _, text in said]
    find = lambda start: [at for at, text in texts if text.startswith(start)]
    places.update(filled=find('Filled')[0], string=find('ConstString')[0], jumbo=find('ConstString')[1], type=find('ConstClass')[0],
                  field=find('Iget')[0], method=find('Invoke')[0])
    return length, places


def distinct(lists):
    """What lists have, each once, in the order in which it comes."""
    return list(dict.fromkeys(text for texts in lists for text in texts))


def size(files):
    classes = [c for file, _ in files for c in file.classes]
    counts = [len(files), len(distinct(file.strings for file, _ in files)), len(distinct(file.types for file, _ in files)), len(classes),
              sum(len(c.statics) + len(c.instances) for c in classes), sum(len(c.directs) + len(c.virtuals) for c in classes)]
    return '%d files, %d names, %d types, %d classes, %d fields, %d methods' % tuple(counts)


def program(*files):
    """All lines by which files with their codes are told, one behind the other."""
    names = distinct(file.strings for file, _ in files)
    numbers = {text: k for k, text in enumerate(names)}
    name = numbers.__getitem__
    yield size(files)
    for k, (file, _) in enumerate(files):
        yield 'types of file %d: %s' % (k, listed('NameNo(%d)' % name(t) for t in file.types))
    for k, (file, codes) in enumerate(files):
        for c in file.classes:
            yield class_text(c, k, name, codes)
    for k, text in enumerate(names):
        yield 'name %d %s' % (k, told_units(text))


def begin(out, *sources):
    out.row('case')
    for k, source in enumerate(sources):
        out.row('file', '%d.dex' % k, source)


def read(out, title, lines):
    out.under(title)
    out.row('read')
    for line in lines:
        out.want('%s: %s' % (title, line))


def read_many(out, title, *files):
    out.under(title, '-digest')
    out.row('read')
    out.want('%s: %s' % (title, digest(program(*files))))


def refused(out, title, rule, place, *before):
    read(out, title, ['rule %d at %d' % (rule, place), size(before)])


def rows(out):
    five, value, every, many = made.five_file(), made.five_file(bytes([4, 5])), made.every_file(), made.many_file()
    out.data('five.dex', made.five_dex())
    out.data('every.dex', made.every_dex())
    out.note('what files say, alone and behind others')
    begin(out)
    read(out, 'no file', program())
    begin(out, 'five.dex')
    read(out, 'the worked file', program(five))
    begin(out, 'value.dex')
    read(out, 'a field with a value', program(value))
    begin(out, 'every.dex')
    read(out, 'every instruction and value', program(every))
    begin(out, 'five.dex', 'every.dex')
    read(out, 'behind the worked file', program(five, every))
    begin(out, 'value.dex', 'value.dex')
    read(out, 'a file twice', program(value, value))
    begin(out, *['five.dex'] * 8)
    read(out, 'eight files', program(*[five] * 8))
    begin(out, *['five.dex'] * 9)
    read(out, 'of nine files the first eight', program(*[five] * 8))
    out.note('files that are large')
    begin(out, 'many.dex')
    read_many(out, 'many members', many)
    begin(out, 'every.dex', 'many.dex', 'five.dex')
    read_many(out, 'many members between others', every, many, five)
    large_code(out)
    out.note('bytes that several parts share')
    out.data('shared.dex', shared.three()[0].write())
    begin(out, 'shared.dex')
    read(out, 'three methods that have one code item', program(shared.three()))
    content, *described = shared.overlapping()
    out.row('case')
    out.row('file', 'a.dex', '-')
    out.row('put', 0, content.hex())
    read(out, 'two code items that overlap', program(described))
    for title, edits, rule, place in shared.broken_three():
        alter(out, 'shared.dex', edits, 'sign', 'sum')
        refused(out, 'of three methods that have one code item: ' + title, rule, place)
    out.note('one rule is broken, or two')
    for title, edits, rule, place in broken_every():
        alter(out, 'every.dex', edits)
        refused(out, title, rule, place)
    for title, rule, place, *edits in BROKEN:
        alter(out, 'value.dex', edits, 'sign', 'sum')
        refused(out, 'the worked file with ' + title, rule, place)
    out.note('a refusal leaves the files before, and no file behind it is read')
    for title, rule, place, *edits in BROKEN:
        begin(out, 'every.dex', 'value.dex')
        for at, content in edits:
            out.row('put', at, content.hex())
        out.row('sign')
        out.row('sum')
        out.row('file', 'behind.dex', 'five.dex')
        refused(out, 'behind another, the worked file with ' + title, rule, place, every)


def large_code(out):
    """The worked file, whose initialiser has 60,000 units behind all else; one more copy has a unit that is none."""
    count = 60000
    file = made.five_file()[0]
    file.write()
    place = 612
    code = half(1) + bytes(10) + word(count)
    edits = [(file.places['LT;-><clinit> code'], made.uleb(place)), (place, code)]
    alter(out, 'five.dex', edits)
    out.row('zeros', 2 * count)
    out.row('put', place + 16 + 2 * (count - 1), half(0x0E).hex())
    for verb in ('length', 'sign', 'sum'):
        out.row(verb)
    read_many(out, 'a long code', made.long_code(count))
    out.row('put', place + 16 + 2 * (count - 2), half(0x3E).hex())
    out.row('sign')
    out.row('sum')
    refused(out, 'a long code that is broken at its end', 21, place + 16 + 2 * (count - 2))
