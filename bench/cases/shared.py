"""Files in which several parts of a program stand in the same bytes: methods that have one code item, items that lie one over
the other, classes that have one list of interfaces. What such a file says, and which rule it breaks, is as if each had bytes
of its own.

A broken rule is told once, with the place of the item or of the unit, however many methods have the item.
"""

from dexfile import Block, Class, Code, CodeAt, File, Method, uleb

from .calls import NOT_BUILT, NO_MEMORY
from .made import OBJECT, half, listed, word

STATIC, PRIVATE = 0x8, 0x2
RETURN_VOID = 0x0E


def lit(text):
    return lambda name: text


def three():
    """A file of three methods that have one code item, in two classes that have one list of interfaces, and the codes that it
    says."""
    call = ('method', 'Lpi/Out;', 'print', ('I',), 'V')
    units = [0x002B, 10, 0, 0x001A, ('string', 'hi'), 0x1071, call, 0x0000, RETURN_VOID, RETURN_VOID, 0x0100, 1, 7, 0, 3, 0]
    code = Code(2, 0, 1, units, shared=True)
    one = Class('LR;', 1, OBJECT, faces=('LQ;',), directs=[Method('a', (), 'V', STATIC, code)])
    two = Class('LS;', 1, OBJECT, faces=('LQ;',), directs=[Method(name, (), 'V', STATIC, code) for name in ('b', 'c')])
    said = [
        (0, 3, lit('Switch { a: 0, cases: %s }' % listed(['Case { key: 7, to: 3 }']))),
        (3, 2, lambda name: 'ConstString { a: 0, s: NameNo(%d) }' % name('hi')),
        (5, 3, lambda name: 'Invoke { how: Static, m: MethodRef { class: NameNo(%d), name: NameNo(%d), params: %s, ret: NameNo(%d) }, regs: %s }' % (
            name('Lpi/Out;'), name('print'), listed(['NameNo(%d)' % name('I')]), name('V'), listed(['0']))),
        (8, 1, lit('ReturnVoid')),
        (9, 1, lit('ReturnVoid')),
    ]
    codes = {key: (len(units), said) for key in (('LR;', 'a'), ('LS;', 'b'), ('LS;', 'c'))}
    return File([one, two]), codes


def broken_three():
    """Copies of that file: a title, what is written over, the rule that is told and its place."""
    file = three()[0]
    data = file.write()
    item = file.places['LR;->a']
    assert item == file.places['LS;->b'] == file.places['LS;->c']
    ids = int.from_bytes(data[92:96], 'little')

    def unit(number):
        return item + 16 + 2 * number

    def of_an_int(name):
        """The method of this name takes an int."""
        method = file.method_no['LS;', name, (), 'V']
        return ids + 8 * method + 2, half(file.proto_no[('I',), 'V'])

    private = file.places['LS;->c flags'], bytes([PRIVATE])
    one_word = item + 2, half(1)
    no_opcode = unit(3), half(0x3E)
    no_string = unit(4), half(len(file.strings))
    no_payload = unit(1), half(9)
    return [
        ('no unit', [(item + 12, word(0))], 20, item),
        ('units outside of the file', [(item + 12, word(len(data)))], 20, item),
        ('the last of them takes an int', [of_an_int('c')], 20, item),
        ('one in the middle takes an int', [of_an_int('b')], 20, item),
        ('only one of them takes the word that the item has', [of_an_int('b'), one_word], 20, item),
        ('all but one take the word that the item has', [of_an_int('b'), of_an_int('c'), one_word], 20, item),
        ('one has a receiver', [private], 20, item),
        ('an opcode that there is not', [no_opcode], 21, unit(3)),
        ('a payload that is cut', [(unit(11), half(2))], 21, unit(10)),
        ('a string that is not there', [no_string], 22, unit(3)),
        ('a method that is not there', [(unit(6), half(len(file.methods)))], 22, unit(5)),
        ('a switch with no payload where it points', [no_payload], 23, unit(0)),
        ('a switch for an array', [(unit(0), half(0x26))], 23, unit(0)),
        ('an int for the last, and an opcode that there is not', [of_an_int('c'), no_opcode], 20, item),
        ('a cut payload, and a string that is not there', [(unit(11), half(2)), no_string], 21, unit(10)),
        ('a string that is not there, and no payload', [no_string, no_payload], 22, unit(3)),
    ]


def overlapping():
    """A file of two methods whose items overlap, what it is as a description without overlap, and the codes that it says.

    The second item begins where the first one's units do: its head is const/4, nops, and a const with its number of units.
    """
    head = [0x0012, 0, 0, 0, 0, 0x0014, 1, 0]
    first = b''.join(map(half, [1, 0, 0, 0, 0, 0, len(head) + 1, 0] + head + [RETURN_VOID]))
    block = Block(first)

    def described(codes):
        methods = [Method(name, (), 'V', STATIC, code) for name, code in zip(('first', 'second'), codes)]
        return File([Class('LT;', 1, OBJECT, directs=methods)])

    nothing = [(at, 1, lit('Nop')) for at in range(1, 5)]
    said = [(0, 1, lit('Const { a: 0, v: 0 }')), *nothing, (5, 3, lit('Const { a: 0, v: 1 }')), (8, 1, lit('ReturnVoid'))]
    codes = {('LT;', 'first'): (9, said), ('LT;', 'second'): (1, [(0, 1, lit('ReturnVoid'))])}
    content = described([CodeAt(0, block), CodeAt(16, block)]).write()
    return content, described([Code(1, 0, 0, head + [RETURN_VOID]), Code(0x12, 0, 0, [RETURN_VOID])]), codes


MOST_BYTES = 16777216

# Files of many methods that have one long item: the file of data/ that has the methods' entries, how many methods there
# are, and how many units.
#
# - 25 KB that say less than a million instructions, and are read.
# - 44 KB that say ten million: kept for each method they take 18,000 times the file's size in memory.
# - 224 KB that say a hundred million: kept for each method they do not fit in 4 GiB.
# - 1.1 MB that say eight thousand million: only to test the rules for each method anew takes minutes.
LARGE = [
    ('shared-many.dex', 1000, 800),
    ('shared-many.dex', 1000, 10000),
    ('shared-many.dex', 1000, 100000),
    ('shared-more.dex', 20000, 400000),
]


def many(count):
    """Entries of so many methods of a class LT; that says no members yet. They take nothing. Where there are more than a
    thousand, some differ in their results alone, so that the data stays small."""
    results = ['V'] if count <= 1000 else ['V'] + ['LR%02d;' % n for n in range(63)]
    methods = [('LT;', 'm%03d' % (n // len(results)), (), results[n % len(results)]) for n in range(count)]
    return File([Class('LT;', 1, OBJECT)], methods=methods)


def with_class_data(calls, source, count):
    """A case of a file of so many methods, which all have an item that begins where the file now ends. The answer is its offset."""
    file = many(count)
    content = file.write()
    assert all(method[0] == 'LT;' for method in file.methods) and len(file.methods) == count
    calls.out.data(source, content)
    counts = uleb(0) + uleb(0) + uleb(count) + uleb(0)
    # each row has a byte for the method, one for its flags, and three for where the item is
    end = len(content) + len(counts) + 5 * count
    item = end + -end % 4
    flags_and_item = bytes([STATIC, 0x80 | item & 0x7F, 0x80 | item >> 7 & 0x7F, item >> 14])
    calls.case()
    calls.words('lazy', 'a.dex', 'LT;', '99')
    calls.file('a.dex', source)
    calls.put(file.places['LT; def'] + 24, word(len(content)))
    calls.put(len(content), counts + b'\0' + flags_and_item)
    if count > 1:
        calls.out.row('fill', count - 1, (b'\1' + flags_and_item).hex())
    calls.put(end, bytes(item - end))
    return item


def run_whole(calls, title, answer):
    for verb in ('length', 'sign', 'sum'):
        calls.out.row(verb)
    calls.run(title, answer)


def brought(count, units, instructions, data):
    """What methods bring that have one item: half of its bytes, its instructions, and the units of the data at which one of
    them points."""
    return count * ((16 + 2 * units) // 2 + instructions + data)


def large(calls):
    """Calls over these files, which are not small, so nothing is built of the one that is read."""
    calls.out.note('many methods that have one code item')
    for source, count, units in LARGE:
        item = with_class_data(calls, source, count)
        calls.put(item, half(1) + bytes(10) + word(units))
        calls.out.row('zeros', 2 * units)
        calls.put(item + 16 + 2 * (units - 1), half(RETURN_VOID))
        answer = NO_MEMORY if brought(count, units, units, 0) > MOST_BYTES else NOT_BUILT
        run_whole(calls, '%d methods that have one code item of %d units' % (count, units), answer)


def filled(calls, item, units, again, count):
    """An item of so many units: some of them again and again, then nops and a return."""
    calls.put(item, half(255) + bytes(10) + word(units))
    calls.out.row('fill', count, b''.join(map(half, again)).hex())
    calls.out.row('zeros', 2 * (units - count * len(again)))
    calls.put(item + 16 + 2 * (units - 1), half(RETURN_VOID))


def full(calls):
    """Files of the greatest length in which nothing is shared: they bring as much as any such file can, and are read."""
    calls.out.note('files of 16 MiB in which nothing is shared')
    item = with_class_data(calls, 'shared-one.dex', 1)
    units = (MOST_BYTES - item - 16) // 2
    assert brought(1, units, units, 0) <= MOST_BYTES
    calls.put(item, half(1) + bytes(10) + word(units))
    calls.out.row('zeros', 2 * units)
    calls.put(item + 16 + 2 * (units - 1), half(RETURN_VOID))
    run_whole(calls, 'one code item up to the end, of instructions of one unit', NOT_BUILT)

    item = with_class_data(calls, 'shared-one.dex', 1)
    # a call of the method itself, by its number, with 255 registers in a row from 0 on
    call = [0xFF77, 0, 0]
    count = (units - 1) // len(call)
    assert brought(1, units, count + 3, 0) <= MOST_BYTES
    filled(calls, item, units, call, count)
    run_whole(calls, 'one code item up to the end, of calls that name 255 registers', NOT_BUILT)

    item = with_class_data(calls, 'shared-one.dex', 1)
    # a switch, a nop, and the payload of the switch, of ten cases that lead to the nop
    switch = [0x002B, 4, 0, 0, 0x0100, 10, 0, 0] + [3, 0] * 10
    count = (units - 1) // len(switch)
    assert brought(1, units, 2 * count + len(switch), 24 * count) <= MOST_BYTES
    filled(calls, item, units, switch, count)
    run_whole(calls, 'one code item up to the end, of switches', NOT_BUILT)

    item = with_class_data(calls, 'shared-one.dex', 1)
    # two instructions, then the head of the payload and so many bytes
    front = [0x0026, 4, 0, RETURN_VOID, 0x0300, 1]
    items = 2 * (units - 8)
    assert brought(1, units, 2, units - 4) <= MOST_BYTES
    calls.put(item, half(1) + bytes(10) + word(units) + b''.join(map(half, front)) + word(items))
    calls.out.row('zeros', items)
    run_whole(calls, 'one code item up to the end, of an array of bytes', NOT_BUILT)
