"""Marked words and their moving. docs/stores.md states the rules."""

from cases.acts import DONE, UNMET, Acts, digest, made
from cases.frames import wanted


class Moves:
    """A list of truth values, and bytes."""

    def __init__(self, places):
        self.marks_of, self.content = [False] * places, b''

    def mark(self, place):
        if place >= len(self.marks_of):
            return UNMET
        self.marks_of[place] = True
        return DONE

    def marks(self, first, step, count):
        return sum(self.mark(first + step * i) == DONE for i in range(count))

    def has(self, place):
        return self.marks_of[place] if place < len(self.marks_of) else UNMET

    def places(self):
        return len(self.marks_of)

    def marked(self):
        return sum(self.marks_of)

    def bytes(self, times, piece):
        self.content = piece * times
        return DONE

    def patch(self, delta):
        if 4 * len(self.marks_of) > len(self.content):
            return UNMET
        new = bytearray(self.content)
        for k, is_marked in enumerate(self.marks_of):
            if is_marked:
                moved = int.from_bytes(new[4 * k:4 * k + 4], 'little') + delta
                if not 0 <= moved < 1 << 32:
                    return fault(k)
                new[4 * k:4 * k + 4] = moved.to_bytes(4, 'little')
        self.content = bytes(new)
        return DONE

    def shown(self):
        return self.content

    def digest(self):
        return digest(self.content)


def fault(k):
    return 'word %d would leave 32 bits' % k


def a_place_is_marked_alone(f):
    f.case(18)
    f.act('places', want=18)
    for place in [0, 7, 9, 17]:
        f.act('mark', place, want=DONE)
    f.act('mark', 18, want=UNMET)
    f.tell('18 places, four of them marked')
    for place in range(18):
        f.act('has', place, want=place in [0, 7, 9, 17])
        f.tell('place %d of 18' % place)
    wanted(f, ('has', 18, UNMET), ('marked', 4), ('mark', 9, DONE), ('marked', 4))
    f.tell('a place is marked once, and there are no others')


LOW = [1, 0, 0, 0, 0xff, 0, 0, 0, 0, 0, 1, 0, 8, 9]
HIGH = [0, 0, 0, 0, 0xfe, 0xff, 0xff, 0xff, 0xff, 0xff, 0xff, 0xff, 8, 9]
FIVE = [5, 0, 0, 0, 4, 0, 0, 0, 0, 0, 0, 0, 8, 9]

# Three words and two bytes behind them: a title, the places that are marked, the number, the bytes, and the bytes behind it
# or the word of the fault.
PATCHES = [
    ('every word, with a carry', [0, 1, 2], 0x102, LOW, [3, 1, 0, 0, 1, 2, 0, 0, 2, 1, 1, 0, 8, 9]),
    ('no word', [], 0x102, LOW, LOW),
    ('the last word', [2], -1, [1, 0, 0, 0, 1, 0, 0, 0, 0, 0, 1, 0, 8, 9], [1, 0, 0, 0, 1, 0, 0, 0, 0xff, 0xff, 0, 0, 8, 9]),
    ('down to 0', [0], -5, FIVE, [0, 0, 0, 0, 4, 0, 0, 0, 0, 0, 0, 0, 8, 9]),
    ('1 below 0', [0, 1], -5, FIVE, 1),
    ('up to the last number', [1], 1, HIGH, [0, 0, 0, 0, 0xff, 0xff, 0xff, 0xff, 0xff, 0xff, 0xff, 0xff, 8, 9]),
    ('1 above the last number', [1, 2], 1, HIGH, 2),
    ('the first of two faults, in the middle', [0, 1, 2], 2, HIGH, 1),
    ('from end to end', [0], 0xffffffff, [0, 0, 0, 0, 1, 0, 0, 0, 1, 0, 0, 0, 8, 9],
     [0xff, 0xff, 0xff, 0xff, 1, 0, 0, 0, 1, 0, 0, 0, 8, 9]),
    ('the least number', [2], -(1 << 63), [0] * 14, 2),
    ('the largest number', [0], (1 << 63) - 1, [1] * 14, 0),
]


def marked_words_move_or_nothing_does(f):
    for title, places, delta, old, want in PATCHES:
        f.case(3)
        f.act('places', want=3)
        for place in places:
            f.act('mark', place, want=DONE)
        f.act('bytes', 1, bytes(old), want=DONE)
        f.act('patch', delta, want=fault(want) if isinstance(want, int) else DONE)
        f.act('shown', want=bytes(old if isinstance(want, int) else want))
        f.tell(title)


def fewer_places_than_words(f):
    f.case(1)
    wanted(f, ('mark', 0, DONE), ('places', 1), ('bytes', 2, bytes([1, 0, 0, 0]), DONE), ('patch', 1, DONE))
    wanted(f, ('shown', bytes([2, 0, 0, 0, 1, 0, 0, 0])), )
    f.tell('fewer places than words')
    f.case(0)
    wanted(f, ('places', 0), ('patch', 1, DONE), ('shown', b''))
    f.tell('no places and no bytes')
    f.case(4)
    wanted(f, ('mark', 3, DONE), ('bytes', 4, bytes([0, 0, 0, 0]), DONE), ('patch', -1, fault(3)))
    wanted(f, ('bytes', 1, bytes(15), DONE), ('patch', 1, UNMET), ('shown', bytes(15)))
    f.tell('the text of a fault, and fewer words than places')


def large(f):
    """A million words, of which each third is marked."""
    count = 1000000
    f.case(count)
    wanted(f, ('places', count), ('marks', 0, 3, count, 333334), ('marked', 333334))
    wanted(f, ('has', 999999, True), ('has', 999998, False), ('has', 999996, True), ('has', 500001, True), ('has', count, UNMET))
    f.tell('a million places')
    wanted(f, ('bytes', count, bytes([0xf0, 0xff, 1, 2]), DONE), ('patch', 0x01020304, DONE))
    f.act('digest')
    wanted(f, ('patch', -0x01020304, DONE), ('digest', digest(bytes([0xf0, 0xff, 1, 2]) * count)))
    f.tell('a million words moved and moved back')
    wanted(f, ('patch', -0x0201fff1, fault(0)), ('digest', digest(bytes([0xf0, 0xff, 1, 2]) * count)))
    f.tell('a million words that would leave 32 bits')
    f.case(count)
    wanted(f, ('mark', 0, DONE), ('mark', count - 1, DONE), ('bytes', count, bytes([0, 0, 0, 0x80]), DONE))
    wanted(f, ('patch', 0x7fffffff, DONE), ('patch', 1, fault(0)))
    f.act('digest')
    f.tell('the first and the last of a million words')


def rows(out):
    f = Acts(out, 'patch', Moves)
    for part in [a_place_is_marked_alone, marked_words_move_or_nothing_does, fewer_places_than_words, large]:
        out.note(part.__name__.replace('_', ' '))
        part(f)
    out.note('rows that are none')
    f.case(3)
    for row in [('mark', 4294967296), ('patch', 9223372036854775808), ('bytes', 1), ('bytes', 1, '0g'), ('places', 0)]:
        f.no_row(*row)
