"""Memory: spaces, numbers at their places, marks that move, and transactions. docs/memory.md states the rules."""

from cases.acts import DONE, FULL, NO, UNMET, Acts, digest, made

BASE = 0x1000


class Memory:
    """Memory as lists of bytes, with a copy of one of them while a transaction is pending."""

    def __init__(self):
        self.held, self.on, self.copy = [], None, None

    # a space is its base, its bytes and its end

    def add(self, base, end, times, piece):
        content = piece * times
        free = all(not (max(base, b) < min(end, e)) for b, _, e in self.held)
        whole = base % 8 == 0 and len(content) % 8 == 0
        if self.on is not None or len(self.held) >= 9 or not whole or not free:
            return UNMET
        if base + len(content) > end or end > 1 << 31:
            return UNMET
        self.held.append((base, bytearray(content), end))
        return len(self.held) - 1

    def holder(self, at, count):
        for k, (base, content, _) in enumerate(self.held):
            if base <= at and at + count <= base + len(content):
                return k
        return None

    def read(self, width, at):
        k = self.holder(at, width)
        if k is None or at % width:
            return UNMET
        base, content, _ = self.held[k]
        return int.from_bytes(content[at - base:at - base + width], 'little')

    def write(self, width, at, number):
        k = self.holder(at, width)
        if k is None or at % width or self.on not in (None, k):
            return UNMET
        base, content, _ = self.held[k]
        content[at - base:at - base + width] = (number % (1 << 8 * width)).to_bytes(width, 'little')
        return DONE

    def sweep(self, width, at, times, number):
        return sum(self.write(width, at + i * width, number + i) == DONE for i in range(times))

    def bump(self, k, count):
        if k >= len(self.held) or count % 8 or self.on not in (None, k):
            return UNMET
        base, content, end = self.held[k]
        mark = base + len(content)
        if mark + count > end:
            return FULL
        content.extend(bytes(count))
        return mark

    def begin(self, k):
        if k >= len(self.held) or self.on is not None:
            return UNMET
        self.on, self.copy = k, bytes(self.held[k][1])
        return DONE

    def commit(self):
        was, self.on = self.on, None
        return made(was is not None)

    def abort(self):
        if self.on is None:
            return UNMET
        self.held[self.on][1][:] = self.copy
        self.on = None
        return DONE

    def free(self, base, end):
        return all(not (max(base, b) < min(end, e)) for b, _, e in self.held)

    def find(self, at, count):
        k = self.holder(at, count)
        return NO if k is None else k

    def spaces(self):
        return len(self.held)

    def pending(self):
        return NO if self.on is None else self.on

    def base(self, k):
        return self.held[k][0] if k < len(self.held) else UNMET

    def mark(self, k):
        return self.held[k][0] + len(self.held[k][1]) if k < len(self.held) else UNMET

    def end(self, k):
        return self.held[k][2] if k < len(self.held) else UNMET

    def bytes(self, k):
        return bytes(self.held[k][1]) if k < len(self.held) else UNMET

    def digest(self, k):
        return digest(self.held[k][1]) if k < len(self.held) else UNMET


def fill(byte):
    return bytes([byte])


def whole(m, spaces):
    """All that there is of some spaces."""
    for k in spaces:
        m.acts(('base', k), ('mark', k), ('end', k), ('bytes', k))


def nine(m):
    """Spaces that touch, of 64 bytes each: the first is empty, and each further one has 8 bytes more below its mark."""
    m.case()
    for k in range(9):
        m.act('add', BASE + 64 * k, BASE + 64 * k + 64, 8 * k, fill(k), want=k)


def nine_that_touch(m):
    nine(m)
    m.act('add', 0x8000, 0x8008, 0, fill(0), want=UNMET)
    m.act('spaces', want=9)
    m.tell('nine spaces, and no tenth')
    for at, width, number, done in [
        (0x1000, 1, 1, False),
        (0x1040, 8, 0x8877665544332211, True),
        (0x1048, 1, 1, False),
        (0x1080, 4, 0xffffffff, True),
        (0x108c, 4, 0xfffffffe, True),
        (0x1200, 2, 0xfffd, True),
        (0x123f, 1, 0xfc, True),
        (0x1240, 1, 0xfb, False),
        (0x0fff, 1, 0xfa, False),
    ]:
        m.act('write', width, at, number, want=made(done))
        m.tell('spaces that touch, a write of width %d at %x' % (width, at))
    for at, width, number in [
        (0x1040, 8, 0x8877665544332211),
        (0x1080, 8, 0x02020202ffffffff),
        (0x1088, 8, 0xfffffffe02020202),
        (0x1090, 1, UNMET),
        (0x10c0, 8, 0x0303030303030303),
        (0x1200, 4, 0x0808fffd),
        (0x1238, 8, 0xfc08080808080808),
        (0x123c, 8, UNMET),
    ]:
        m.act('read', width, at, want=number)
        m.tell('spaces that touch, a read of width %d at %x' % (width, at))
    for at, count, space in [(0x1238, 8, 8), (0x10f8, 1, NO), (0x1238, 9, NO), (0x1040, 0, 1), (0x107f, 2, NO)]:
        m.act('find', at, count, want=space)
        m.tell('the space of a place of %d at %x' % (count, at))


def bounds_of_nine(m):
    nine(m)
    m.act('spaces', want=9)
    m.tell('nine spaces with 8 bytes more in each')
    for k in range(9):
        for verb, at in [('base', 0), ('mark', 8 * k), ('end', 64)]:
            m.act(verb, k, want=BASE + 64 * k + at)
        m.act('bytes', k, want=bytes([k]) * (8 * k))
        m.tell('base, mark, end and bytes of space %d of nine' % k)
    for verb in ['base', 'mark', 'end', 'bytes', 'digest']:
        m.act(verb, 9, want=UNMET)
    m.tell('a tenth space has no bounds and no bytes')


def free_or_not(m):
    m.case()
    for base, end, space in [
        (0x7fffff00, 0x80000000, 0),
        (0x7ffffef0, 0x7fffff08, UNMET),
        (0x80000000, 0x80000008, UNMET),
        (0x7ffffef0, 0x7fffff00, 1),
    ]:
        m.act('add', base, end, 8, fill(7), want=space)
        m.tell('a space from %x to %x' % (base, end))
    for base, end, free in [
        (0, 0x7ffffef0, True),
        (0, 0x7ffffef1, False),
        (0x7fffffff, 0x80000000, False),
        (0x80000000, 0x90000000, True),
        (0x7fffff80, 0x7fffff80, True),
    ]:
        m.act('free', base, end, want=free)
        m.tell('is free from %x to %x' % (base, end))


def spaces_that_are_none(m):
    m.case()
    for title, base, end, times, piece in [
        ('a base that is no multiple of 8', 0x1004, 0x1020, 8, fill(1)),
        ('bytes that are no multiple of 8', 0x1000, 0x1020, 4, fill(1)),
        ('bytes past the end', 0x1000, 0x1020, 40, fill(1)),
        ('an end before the base', 0x1000, 0x0ff8, 0, fill(0)),
        ('an end past 2^31', 0x1000, 0x80000008, 0, fill(0)),
    ]:
        m.act('add', base, end, times, piece, want=UNMET)
        m.act('spaces', want=0)
        m.tell('no space has ' + title)
    m.act('add', 0x1000, 0x1020, 1, bytes(range(16)), want=0)
    m.act('add', 0x1020, 0x1020, 0, fill(0), want=1)
    whole(m, [0, 1])
    m.tell('a space of its bytes, and one of no range')


def each_width(m):
    m.case()
    m.act('add', BASE, BASE + 16, 16, fill(0), want=0)
    for at, width, number in [
        (0x1008, 8, 0x1817161514131211),
        (0x1000, 8, 0x0807060504030201),
        (0x1004, 4, 0x48474645),
        (0x1006, 2, 0x2827),
        (0x1001, 1, 0x92),
    ]:
        m.act('write', width, at, number, want=DONE)
        m.act('bytes', 0)
        m.tell('all bytes behind a write of width %d at %x' % (width, at))
    for at, width, number in [
        (0x1000, 1, 0x01),
        (0x1001, 1, 0x92),
        (0x1004, 1, 0x45),
        (0x1007, 1, 0x28),
        (0x100f, 1, 0x18),
        (0x1000, 2, 0x9201),
        (0x1004, 2, 0x4645),
        (0x1006, 2, 0x2827),
        (0x100e, 2, 0x1817),
        (0x1000, 4, 0x04039201),
        (0x1004, 4, 0x28274645),
        (0x100c, 4, 0x18171615),
        (0x1000, 8, 0x2827464504039201),
        (0x1008, 8, 0x1817161514131211),
    ]:
        m.act('read', width, at, want=number)
        m.tell('a read of width %d at %x, behind writes of other widths' % (width, at))
    for width in [2, 4, 8]:
        m.act('read', width, BASE + 1, want=UNMET)
        m.act('write', width, BASE + 1, 0, want=UNMET)
        m.act('read', width, BASE + width // 2, want=UNMET)
        m.tell('width %d at addresses that are no multiple of it' % width)


def bumps(m):
    m.case()
    m.act('add', BASE, BASE + 40, 8, fill(5), want=0)
    for count, place, length in [
        (0, BASE + 8, 8),
        (16, BASE + 8, 24),
        (24, FULL, 24),
        (0xfffffffffffffff8, FULL, 24),
        (16, BASE + 24, 40),
        (0, BASE + 40, 40),
        (8, FULL, 40),
        (4, UNMET, 40),
    ]:
        m.act('bump', 0, count, want=place)
        m.act('bytes', 0, want=fill(5) * 8 + bytes(length - 8))
        m.tell('a mark moved by %d' % count)
    m.act('read', 8, BASE, want=0x0505050505050505)
    m.act('read', 8, BASE + 32, want=0)
    m.act('bump', 1, 8, want=UNMET)
    m.tell('what stands behind the moves, and no move of a space that is not there')


# the acts of the list, each with what it says: the place is counted from the base
MIXED = [
    ('write', 0, 4, 0x04030201),
    ('bump', 8),
    ('write', 10, 2, 0xffee),
    ('begin',),
    ('write', 8, 8, 0x1817161514131211),
    ('bump', 16),
    ('write', 28, 4, 0xddccbbaa),
    ('write', 3, 1, 0x77),
    ('abort',),
    ('bump', 0),
    ('write', 12, 4, 0xfeedbeef),
    ('begin',),
    ('bump', 24),
    ('write', 32, 8, 0x2827262524232221),
    ('bump', 8),
    ('write', 1, 1, 0x99),
    ('commit',),
    ('begin',),
    ('write', 0, 8, 0),
    ('abort',),
]


def mixed(m):
    m.case()
    m.act('add', BASE, BASE + 40, 8, fill(1), want=0)
    for number, (verb, *words) in enumerate(MIXED):
        if verb == 'write':
            at, width, value = words
            m.act('write', width, BASE + at, value)
        elif verb in ('bump', 'begin'):
            m.act(verb, 0, *words)
        else:
            m.act(verb)
        whole(m, [0])
        m.act('pending')
        m.tell('mixed acts, %d, %s' % (number, ' '.join(map(str, (verb, *words)))))


def two(m, length):
    """A space of 24 bytes with so many below its mark, and one behind it."""
    m.case()
    m.act('add', BASE, BASE + 24, length, fill(9), want=0)
    m.act('add', BASE + 24, BASE + 40, 8, fill(6), want=1)


def an_abort_leaves_nothing(m):
    for length, count, writes, written in [
        (0, 0, True, 0),
        (0, 24, False, 0),
        (0, 24, True, 24),
        (8, 0, True, 8),
        (8, 16, False, 0),
        (8, 16, True, 24),
        (24, 0, True, 24),
    ]:
        two(m, length)
        m.act('begin', 0, want=DONE)
        if count:
            m.act('bump', 0, count, want=BASE + length)
        if writes:
            m.act('sweep', 1, BASE, 40, 0xa0, want=written)
        m.act('bytes', 0)
        m.act('abort', want=DONE)
        m.act('bytes', 0, want=fill(9) * length)
        m.act('bytes', 1, want=fill(6) * 8)
        whole(m, [0, 1])
        if count:
            m.act('bump', 0, count, want=BASE + length)
            m.act('read', 8, BASE + 16, want=0)
        m.tell('undone: %d bytes, a mark by %d%s' % (length, count, ', writes' if writes else ''))


def a_commit_keeps_all(m):
    two(m, 8)
    m.act('begin', 0, want=DONE)
    m.act('pending', want=0)
    m.act('bump', 0, 16, want=BASE + 8)
    m.act('sweep', 1, BASE, 40, 0xa0, want=24)
    m.act('commit', want=DONE)
    m.act('pending', want=NO)
    whole(m, [0, 1])
    m.tell('a transaction that is kept')
    m.act('begin', 1, want=DONE)
    m.act('write', 8, BASE, 4, want=UNMET)
    m.act('bump', 0, 8, want=UNMET)
    m.act('write', 8, BASE + 24, 4, want=DONE)
    m.act('bump', 1, 8, want=BASE + 32)
    m.act('abort', want=DONE)
    whole(m, [0, 1])
    m.act('read', 8, BASE + 16, want=0xb7b6b5b4b3b2b1b0)
    m.act('read', 8, BASE + 24, want=0x0606060606060606)
    m.tell('and one on the other space behind it, undone')


def transactions_that_are_none(m):
    two(m, 8)
    m.act('commit', want=UNMET)
    m.act('abort', want=UNMET)
    m.act('begin', 2, want=UNMET)
    m.act('begin', 255, want=UNMET)
    m.act('pending', want=NO)
    m.tell('no end of a transaction that is not pending, and no begin on a space that is not there')
    m.act('begin', 1, want=DONE)
    m.act('begin', 0, want=UNMET)
    m.act('begin', 1, want=UNMET)
    m.act('add', 0x8000, 0x8008, 0, fill(0), want=UNMET)
    m.act('pending', want=1)
    m.act('read', 8, BASE, want=0x0909090909090909)
    m.act('commit', want=DONE)
    m.act('commit', want=UNMET)
    m.act('add', 0x8000, 0x8008, 0, fill(0), want=2)
    m.tell('no second transaction and no new space while one is pending')


def large(m):
    """A space of 1 MiB, with room for as much again."""
    size, base = 1 << 20, 0x00100000
    m.case()
    m.act('add', base, base + 2 * size, size // 8, bytes.fromhex('00112233445566ff'), want=0)
    m.act('mark', 0, want=base + size)
    m.act('digest', 0)
    m.tell('1 MiB')
    m.act('begin', 0, want=DONE)
    m.act('sweep', 8, base, size // 8, 0xfedcba9800000000, want=size // 8)
    m.act('bump', 0, size, want=base + size)
    m.act('sweep', 1, base + size, size, 1, want=size)
    m.act('bump', 0, 8, want=FULL)
    m.act('mark', 0, want=base + 2 * size)
    m.act('digest', 0)
    m.tell('1 MiB and as much again, all of it written')
    m.act('abort', want=DONE)
    m.act('mark', 0, want=base + size)
    m.act('digest', 0, want=digest(bytes.fromhex('00112233445566ff') * (size // 8)))
    m.tell('1 MiB as it was')
    m.act('begin', 0, want=DONE)
    m.act('sweep', 4, base, size // 4, 7, want=size // 4)
    m.act('bump', 0, size, want=base + size)
    m.act('sweep', 2, base + size, 9, 0xfff8, want=9)
    m.act('commit', want=DONE)
    m.act('digest', 0)
    m.act('read', 8, base + 2 * size - 8, want=0)
    m.tell('1 MiB, written and kept')


def rows(out):
    m = Acts(out, 'memory', Memory)
    out.note('acts before there is a memory')
    m.no_row('spaces')
    for part in [nine_that_touch, bounds_of_nine, free_or_not, spaces_that_are_none, each_width, bumps, mixed,
                 an_abort_leaves_nothing, a_commit_keeps_all, transactions_that_are_none, large]:
        out.note(part.__name__.replace('_', ' '))
        part(m)
    out.note('rows that are none')
    for row in [('case', 1), ('jump', 3), ('read', 8), ('begin', 256), ('spaces', 0), ('add', 4096, 4104, 1, '0')]:
        m.no_row(*row)
