"""Files that break no rule and are made to cost far more time or memory than their size lets expect.

What a file says in a few bytes may stand for much: a code item that many methods have, a list that many ranges or classes
have, a payload at which many instructions point, a call that names a row of 255 registers. Each function makes a file that
grows by about a thousand bytes, or by a part of that, with its count.
"""

from dexfile import Block, Class, Code, CodeAt, Field, File, Method, Texts

OBJECT = 'Ljava/lang/Object;'
PUBLIC, STATIC = 0x1, 0x8
NOP, RETURN_VOID = 0x0000, 0x000E
CONST, CONST_4, MOVE, ARRAY_LENGTH = 0x0014, 0x0012, 0x0001, 0x0021
FILLED_RANGE, FILL_ARRAY, PACKED_SWITCH, SPARSE_SWITCH, INVOKE_STATIC_RANGE = 0x25, 0x26, 0x2B, 0x2C, 0x77
MOST_TYPES = 65535

# Instructions of a single unit each, with registers of which code with 16 has enough.
SINGLE = [NOP, 0x1200 | MOVE, NOP, 0x4300 | ARRAY_LENGTH, NOP, 0x6500 | MOVE, 0x1000 | CONST_4, 0x1200 | MOVE]

# Methods of one name that differ in their results alone cost fewer bytes than those of names of their own.
RESULTS = ['Lresult/R%02d;' % n for n in range(64)]


def pair(number):
    """A number of 32 bits as two units."""
    return [number & 0xFFFF, number >> 16 & 0xFFFF]


def one_code(code):
    """A class with one method."""
    return File([Class('Lmain/Main;', PUBLIC, OBJECT, directs=[Method('work', (), 'V', PUBLIC | STATIC, code)])])


def sharing(codes, count):
    """So many methods that take the codes in turns."""
    methods = [Method('m%05x' % (n // 64), (), RESULTS[n % 64], PUBLIC | STATIC, codes[n % len(codes)]) for n in range(count)]
    return File([Class('Lmain/Main;', PUBLIC, OBJECT, directs=methods)])


def shared_long(count):
    """Four long codes, each of which many methods have."""
    codes = [Code(16, 0, 0, (SINGLE * 9)[n:] * count + [RETURN_VOID], shared=True) for n in range(4)]
    return sharing(codes, 40 * count)


def shared_short(count):
    """Many short codes, each of which sixteen methods have."""
    codes = [Code(16, 0, 0, [n % 16 << 12 | CONST_4, RETURN_VOID], shared=True) for n in range(4 * count)]
    return sharing(codes, 64 * count)


def shared_handlers(count):
    """One code of many ranges, which all have the same long list of handlers."""
    handlers = tuple((RESULTS[n], n) for n in range(60)) * (128 * count), 1
    return one_code(Code(16, 0, 0, [NOP] * (60 * count) + [RETURN_VOID], [(n, 1, handlers) for n in range(60 * count)]))


def wide_protos(count):
    """Calls of a method that has 255 parameters."""
    method = ('method', 'Lmain/Other;', 'wide', ('I',) * 255, 'V')
    return one_code(Code(255, 0, 255, [0xFF00 | INVOKE_STATIC_RANGE, method, 0] * (160 * count) + [RETURN_VOID]))


def own_protos(count):
    """Calls of methods with 255 parameters, each of another prototype. The prototypes have long fronts in common."""
    units = []
    for n in range(2 * count):
        params = ('Lmain/A;',) * 238 + tuple('Lmain/B;' if n >> bit & 1 else 'Lmain/A;' for bit in range(16, -1, -1))
        units += [0xFF00 | INVOKE_STATIC_RANGE, ('method', 'Lmain/Other;', 'wide', params, 'V'), 0]
    return one_code(Code(255, 0, 255, units + [RETURN_VOID]))


def wide_rows(count):
    """Instructions that name 255 registers in a row: arrays, and calls of a method without parameters."""
    call = [0xFF00 | INVOKE_STATIC_RANGE, ('method', 'Lmain/Other;', 'narrow', (), 'V'), 0]
    return one_code(Code(255, 0, 255, ([0xFF00 | FILLED_RANGE, ('type', '[I'), 0] + call) * (80 * count) + [RETURN_VOID]))


def nops(count):
    """One code that does nothing."""
    return one_code(Code(1, 0, 0, [NOP] * (500 * count) + [RETURN_VOID]))


def switches(count):
    """Packed and sparse switches, 24 of each, with large payloads."""
    cases, pairs = 4 * count, 24
    at = 6 * pairs + 2
    units, payloads = [], []
    for n in range(pairs):
        back = pair(6 * pairs - len(units))
        packed = [0x0100, cases] + pair(n) + back * cases
        units += [PACKED_SWITCH] + pair(at + len(payloads) - len(units))
        payloads += packed
        back = pair(6 * pairs - len(units))
        sparse = [0x0200, cases] + [unit for key in range(cases) for unit in (key, n)] + back * cases
        units += [SPARSE_SWITCH] + pair(at + len(payloads) - len(units))
        payloads += sparse
    return one_code(Code(1, 0, 0, units + [RETURN_VOID, RETURN_VOID] + payloads))


def pointing(opcode, count, payload):
    """So many instructions that point at one payload."""
    at = 3 * count + 1 + (count + 1) % 2
    units = []
    for unit in range(0, 3 * count, 3):
        units += [opcode] + pair(at - unit)
    return one_code(Code(1, 0, 0, units + [RETURN_VOID] * (at - len(units)) + payload))


def one_payload(count):
    """Switches that all have the same cases."""
    cases = 62 * count
    return pointing(SPARSE_SWITCH, 2640 * count, [0x0200, cases] + [unit for key in range(cases) for unit in (key, 0)] + [3, 0] * cases)


def array(count):
    """The payload of an array of bytes, a thousand for each count."""
    return [0x0300, 1] + pair(1000 * count) + [0x1234, 0x89AB, 0xFF00, 0x4321] * (125 * count)


def arrays(count):
    """An array that is nearly the whole file."""
    return pointing(FILL_ARRAY, 1, array(count))


def one_array(count):
    """Instructions that all fill arrays with the same bytes."""
    return pointing(FILL_ARRAY, 160 * count, array(count))


def overlapping_texts(count):
    """Strings that are ends of a long text, and more that differ from them in the last unit alone.

    The text is made of pieces of three bytes. Each is two units: one in two bytes, and one in one byte. It is also a number
    in three bytes, of seven bits each: where as many units as this number says stand behind the piece, a string begins there.
    The last unit stands behind the pieces, which are repeated for each last unit.
    """
    pieces, lasts = 64 * count, b'abcde'
    run, starts = bytearray(), []
    for n in range(pieces):
        behind = 2 * (pieces - 1 - n) + 1
        low, middle, high = behind & 0x7F, behind >> 7 & 0x7F, behind >> 14
        if 0x42 <= low < 0x60 and middle < 0x40 and 0 < high:
            starts.append(3 * n)
            run += bytes([0x80 | low, 0x80 | middle, high])
        else:
            # no unit is that of a piece near it, so that the ends differ early
            run += bytes([0xC2 + n % 30, 0x80 + n // 30 % 64, 1 + n // 1920 % 127])
    # a unit of one byte is below one of two bytes, so bytes have the order of units; few bytes tell the ends apart
    fronts = {start: bytes(run[start + 3:start + 203]) for start in starts}
    assert len(set(fronts.values())) == len(starts)
    starts.sort(key=fronts.get)
    copies = [(k * (len(run) + 2), bytes([last])) for k, last in enumerate(lasts)]
    data = b''.join(bytes(run) + last + b'\0' for _, last in copies)
    return Texts(data, [begin + start for start in starts for begin, _ in copies])


def overlapping_codes(count):
    """Code items that lie one over the other: the head of each is instructions of those before it.

    In the first block a head is at each 16 bytes. It has const/4 as its first unit and nops behind it, and what it says of
    debug information and of units is a nop and a const with its number. The units of each reach to the end of the block.
    The second block is the same word over and over, const/4 and a nop, and an item begins at each of them. As a number of
    units this word is 65298, so that the items end one behind the other.
    """
    heads, words = 16 * count, 26 * count
    first = bytearray()
    for n in range(heads):
        first += CONST_4.to_bytes(8, 'little') + (CONST << 16).to_bytes(4, 'little') + (8 * (heads - 1 - n) + 2).to_bytes(4, 'little')
    first = Block(bytes(first) + NOP.to_bytes(2, 'little') + RETURN_VOID.to_bytes(2, 'little'))
    word = 0xFF00 | CONST_4
    second = Block(word.to_bytes(4, 'little') * (words - 1) + word.to_bytes(4, 'little') * (4 + word // 2))
    return sharing([CodeAt(16 * n, first) for n in range(heads)] + [CodeAt(4 * n, second) for n in range(words)], heads + words)


def deep_arrays(count):
    """Types of arrays with 255 dimensions."""
    return File([], types=['[' * 255 + 'Ldeep/T%05d;' % n for n in range(4 * count)])


def one_class(count):
    """A class that has all fields and methods of the file."""
    def code(ins):
        return Code(16, ins, 0, [RETURN_VOID])

    names = ['%06x' % n for n in range(4 * count)]
    return File([Class(
        'Lmain/Main;', PUBLIC, OBJECT,
        statics=[Field('a' + name, 'I', PUBLIC | STATIC, b'\x04\x07') for name in names],
        instances=[Field('b' + name, 'I', PUBLIC) for name in names],
        directs=[Method('a' + name, (), 'V', PUBLIC | STATIC, code(0)) for name in names],
        virtuals=[Method('b' + name, (), 'V', PUBLIC, code(1)) for name in names])])


def many_classes(count):
    """Classes with a few members. Each stands below the one before it."""
    classes, parent = [], OBJECT
    for n in range(min(4 * count, MOST_TYPES - 3)):
        name = 'Lmany/C%05x;' % n
        methods = [Method('m%d' % k, (), 'V', PUBLIC, Code(16, 1, 0, [RETURN_VOID])) for k in range(6)]
        classes.append(Class(name, PUBLIC, parent, instances=[Field('f', 'I', PUBLIC)], virtuals=methods))
        parent = name
    return File(classes)


def shared_faces(count):
    """Classes that share a list of as many interfaces as there are classes. There are no more types than that, so larger
    files have strings besides."""
    most = (MOST_TYPES - 1) // 2
    classes, filling = min(10 * count, most), max(0, 10 * count - most)
    faces = tuple('Lf%04x;' % n for n in range(classes))
    return File([Class('Lc%04x;' % n, PUBLIC, OBJECT, faces) for n in range(classes)], ['%064x' % n for n in range(filling)])


HOSTILE = {
    'shared_long': shared_long,
    'shared_short': shared_short,
    'shared_handlers': shared_handlers,
    'wide_protos': wide_protos,
    'own_protos': own_protos,
    'wide_rows': wide_rows,
    'nops': nops,
    'switches': switches,
    'one_payload': one_payload,
    'arrays': arrays,
    'one_array': one_array,
    'overlapping_texts': overlapping_texts,
    'overlapping_codes': overlapping_codes,
    'deep_arrays': deep_arrays,
    'one_class': one_class,
    'many_classes': many_classes,
    'shared_faces': shared_faces,
}
