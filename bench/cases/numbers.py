"""Numbers and texts in bytes, by docs/dex-format.md, "Numbers" and "MUTF-8"."""

import hashlib

from cases.units import told_units

SHORT, LONG = 'Err(Short)', 'Err(LongLeb)'

# what the case shows, the bytes, and the number or the fault; a fault leaves the place at 0
UNSIGNED = [
    ('the published example', 'e58e26', 624485),
    ('one byte of 0', '00', 0),
    ('the largest of one byte, and another byte behind it', '7f01', 127),
    ('the least of two bytes', '8001', 128),
    ('the largest', 'ffffffff0f', 2**32 - 1),
    ('0 in five bytes', '8080808000', 0),
    ('two bytes where one would do', '8500', 5),
    ('a fifth byte of 16', 'ffffffff10', LONG),
    ('a fifth byte that goes on', '8080808080', LONG),
    ('a fifth byte that goes on, and a sixth', '808080808f00', LONG),
    ('no byte', '', SHORT),
    ('an end behind one byte', '80', SHORT),
    ('an end behind two bytes', 'ffff', SHORT),
    ('an end behind three bytes', 'ffffff', SHORT),
    ('an end behind four bytes', 'ffffffff', SHORT),
]

SIGNED = [
    ('the published example', 'c0bb78', -123456),
    ('one byte of 0', '00', 0),
    ('the largest of one byte', '3f', 63),
    ('the least of one byte', '40', -64),
    ('the sign of one byte', '7f', -1),
    ('two bytes with a sign', 'bf7f', -65),
    ('the largest', 'ffffffff07', 2**31 - 1),
    ('the least', '8080808078', -2**31),
    ('-1 in five bytes', 'ffffffff7f', -1),
    ('a fifth byte above 7', '8080808008', LONG),
    ('a fifth byte below 0x78', 'ffffffff77', LONG),
    ('a fifth byte that goes on', '808080808000', LONG),
    ('no byte', '', SHORT),
    ('an end behind one byte', 'ff', SHORT),
    ('an end behind two bytes', 'ffff', SHORT),
    ('an end behind three bytes', 'ffffff', SHORT),
    ('an end behind four bytes', '80808080', SHORT),
]

# what the case shows, the bytes, where the cursor begins, and its calls with the answers
CALLS = [
    ('numbers of fixed width, pieces, and the end', 'ff013412785634920908' + '07', 1, [
        ('at', '1'), ('u8', 'Ok(1)'), ('u16', 'Ok(4660)'), ('u32', 'Ok(%d)' % 0x92345678), ('u32', SHORT),
        ('take=4', SHORT), ('at', '8'), ('take=2', '[0908]'), ('u16', SHORT), ('at', '10'), ('u8', 'Ok(7)'), ('u8', SHORT),
        ('take=0', '[]'), ('at', '11')]),
    ('a cursor at the end', 'ff01', 2, [
        ('u8', SHORT), ('u16', SHORT), ('u32', SHORT), ('uleb', SHORT), ('sleb', SHORT), ('take=1', SHORT), ('take=0', '[]'), ('at', '2')]),
    ('no bytes', '', 0, [('at', '0'), ('take=0', '[]'), ('u8', SHORT)]),
    ('a refusal leaves the place alone', '80', 0, [('uleb', SHORT), ('sleb', SHORT), ('u16', SHORT), ('u8', 'Ok(128)'), ('at', '1')]),
    ('numbers behind numbers', 'e58e26c0bb787f', 0, [
        ('uleb', 'Ok(624485)'), ('sleb', 'Ok(-123456)'), ('at', '6'), ('sleb', 'Ok(-1)'), ('at', '7')]),
    ('a number that leaves 32 bits is passed over byte by byte', 'ffffffff7f', 0, [
        ('uleb', LONG), ('at', '0'), ('sleb', 'Ok(-1)'), ('at', '5')]),
    ('three bytes are no word', '010203', 0, [('u32', SHORT), ('at', '0'), ('u16', 'Ok(513)'), ('u16', SHORT), ('u8', 'Ok(3)')]),
]

# what the case shows, the bytes, the number of units, and the units with the place behind them
TEXTS = [
    ('no unit', '00', 0, [], 0),
    ('the unit 0 has two bytes', 'c08000', 1, [0], 2),
    ('a surrogate alone', 'eda08000', 1, [0xD800], 3),
    ('one, two and three bytes, and more behind the text', '61c3a9e282ac0062', 3, [0x61, 0xE9, 0x20AC], 6),
    ('a character of two surrogates', 'eda0bdedb88000', 2, [0xD83D, 0xDE00], 6),
    ('the edges of each length', 'c080017fc280dfbfe0a080eda080edb080efbfbf00', 9,
     [0, 1, 0x7F, 0x80, 0x7FF, 0x800, 0xD800, 0xDC00, 0xFFFF], 20),
]

# what the case shows, the bytes, the number of units, and the first bad byte
BAD = [
    ('two bytes for a unit of one', 'c1bf00', 1, 0),
    ('two bytes for the unit 1', 'c08100', 1, 0),
    ('three bytes for a unit of two', '61e09fbf00', 2, 1),
    ('three bytes for the unit 0', 'e0808000', 1, 0),
    ('a further byte begins no unit', '618000', 2, 1),
    ('the first byte of four begins no unit', 'f09f988000', 2, 0),
    ('a 0 within the text', '61006200', 3, 1),
    ('no byte for a unit', '', 1, 0),
    ('one byte of two', 'c3', 1, 0),
    ('two bytes of three', '61e282', 2, 1),
    ('another byte in place of a second', '61c36100', 2, 1),
    ('another byte in place of a third', 'e28200', 1, 0),
    ('no byte for the 0', '', 0, 0),
    ('no 0 behind the text', '6162', 2, 2),
    ('a unit in place of the 0', 'c3a96200', 1, 2),
    ('room is not taken for a number alone', '616200', 2**32 - 1, 2),
]

# units that are written, with the bytes
WRITTEN = [
    ('no unit is written', [], '00'),
    ('letters are written', [0x68, 0x69], '686900'),
    ('the edges of each length are written', [0, 1, 0x7F, 0x80, 0x7FF, 0x800, 0xD800, 0xDC00, 0xFFFF],
     'c080017fc280dfbfe0a080eda080edb080efbfbf00'),
]

MANY = 100000


def case(out, title, content):
    out.row('case')
    out.under(title, '-short')
    if content:
        out.row('bytes', content)


def leb(out, call, table):
    for shows, content, number in table:
        title = '%s: %s' % (call, shows)
        case(out, title, content)
        out.row('read', 0, call, 'at')
        failed = isinstance(number, str)
        length = 0 if failed else next(i + 1 for i in range(5) if int(content[2 * i:2 * i + 2], 16) < 128)
        out.want('%s: %s %d' % (title, number if failed else 'Ok(%d)' % number, length))


def bad(place):
    return 'Bad(%d): byte %d is not that of a text' % (place, place)


def shortened(text):
    """As the program tells what is longer than 600 bytes."""
    return text if len(text) <= 600 else '%d bytes %s' % (len(text), hashlib.sha1(text.encode()).hexdigest())


def in_hex(units):
    return ''.join('%04x' % u for u in units)


def many(out):
    """Inputs that take room many times."""
    case(out, 'a text of many units', '')
    out.row('times', MANY, '61c3a9e282ac')
    out.row('bytes', '00')
    out.row('text', 3 * MANY)
    text = shortened(told_units([0x61, 0xE9, 0x20AC] * MANY))
    out.want('a text of many units: [%s] %d' % (text, 6 * MANY))
    out.row('text', 3 * MANY + 1)
    out.want('a text of many units: ' + bad(6 * MANY))
    case(out, 'many units are written', '')
    out.row('times', MANY, in_hex([0x61, 0xE9, 0x20AC]))
    out.row('spell')
    out.want('many units are written: ' + shortened('61c3a9e282ac' * MANY + '00'))
    case(out, 'a cursor over many bytes', '')
    out.row('times', MANY, '61c3a9e282ac')
    out.row('bytes', 'e58e26')
    out.row('read', 6 * MANY - 2, 'take=%d' % 2, 'uleb', 'at', 'u8')
    out.want('a cursor over many bytes: [82ac] Ok(624485) %d %s' % (6 * MANY + 3, SHORT))
    out.row('read', 0, 'take=%d' % (6 * MANY), 'u8')
    out.want('a cursor over many bytes: ' + shortened('[' + '61c3a9e282ac' * MANY + '] Ok(229)'))


def rows(out):
    leb(out, 'uleb', UNSIGNED)
    leb(out, 'sleb', SIGNED)
    for shows, content, place, calls in CALLS:
        case(out, shows, content)
        out.row('read', place, *[call for call, _ in calls])
        out.want('%s: %s' % (shows, ' '.join(answer for _, answer in calls)))
    for shows, content, count, units, before in TEXTS:
        case(out, shows, content)
        out.row('text', count)
        out.want('%s: [%s] %d' % (shows, told_units(units), before))
    for shows, content, count, place in BAD:
        case(out, shows, content)
        out.row('text', count)
        out.want('%s: %s' % (shows, bad(place)))
    for shows, units, content in WRITTEN:
        case(out, shows, in_hex(units))
        out.row('spell')
        out.want('%s: %s' % (shows, content))
    many(out)
