"""The addresses of texts, with transactions that are undone and kept. docs/stores.md states the rules."""

from cases.acts import DONE, NO, UNMET, Acts, made
from cases.frames import wanted


class Literals:
    """A list of slots, and a copy of it while a transaction is pending."""

    def __init__(self, names):
        self.slots, self.copy = [None] * names, None

    def set(self, name, at):
        if name >= len(self.slots) or self.slots[name] is not None:
            return UNMET
        self.slots[name] = at
        return DONE

    def fill(self, first, count, at):
        return sum(self.set(first + i, at + i) == DONE for i in range(count))

    def addr(self, name):
        if name >= len(self.slots):
            return UNMET
        return NO if self.slots[name] is None else self.slots[name]

    def begin(self):
        if self.copy is not None:
            return UNMET
        self.copy = list(self.slots)
        return DONE

    def commit(self):
        was, self.copy = self.copy, None
        return made(was is not None)

    def abort(self):
        if self.copy is None:
            return UNMET
        self.slots, self.copy = self.copy, None
        return DONE

    def filled(self):
        return sum(at is not None for at in self.slots)

    def sum(self):
        return sum(at for at in self.slots if at is not None)


def a_transaction_taken_back(f):
    f.case(4)
    wanted(f, ('set', 1, 0x10, DONE), ('begin', DONE), ('set', 3, 0x30, DONE), ('set', 0, 0x40, DONE))
    wanted(f, ('addr', 0, 0x40), ('addr', 1, 0x10), ('addr', 2, NO), ('addr', 3, 0x30))
    f.tell('slots within a transaction')
    wanted(f, ('abort', DONE), ('addr', 0, NO), ('addr', 1, 0x10), ('addr', 2, NO), ('addr', 3, NO))
    f.tell('slots of a transaction that is taken back')
    wanted(f, ('set', 3, 0x50, DONE), ('begin', DONE), ('set', 0, 0x60, DONE), ('abort', DONE))
    wanted(f, ('addr', 0, NO), ('addr', 3, 0x50))
    f.tell('a second one takes back its own alone')


def a_transaction_kept(f):
    f.case(2)
    wanted(f, ('begin', DONE), ('set', 0, 7, DONE), ('commit', DONE), ('begin', DONE), ('set', 1, 8, DONE), ('abort', DONE))
    wanted(f, ('addr', 0, 7), ('addr', 1, NO))
    f.tell('one kept, and the next taken back')
    wanted(f, ('begin', DONE), ('set', 1, 9, DONE), ('commit', DONE), ('addr', 1, 9))
    f.tell('a slot taken back is set anew')


def conditions(f):
    f.case(3)
    wanted(f, ('set', 2, 0xffffffff, DONE), ('set', 2, 5, UNMET), ('addr', 2, 0xffffffff), ('set', 3, 5, UNMET), ('addr', 3, UNMET))
    wanted(f, ('set', 0, 0, DONE), ('addr', 0, 0), ('filled', 2), ('sum', 0xffffffff))
    f.tell('a slot is set once, and there are no others')
    wanted(f, ('commit', UNMET), ('abort', UNMET), ('begin', DONE), ('begin', UNMET), ('abort', DONE), ('abort', UNMET))
    f.tell('a transaction begins and ends once')
    f.case(0)
    wanted(f, ('addr', 0, UNMET), ('begin', DONE), ('set', 0, 1, UNMET), ('commit', DONE), ('filled', 0))
    f.tell('no names')


def large(f):
    """A million names, of which each is set in one transaction."""
    count = 1000000
    f.case(count)
    wanted(f, ('begin', DONE), ('fill', 0, count, 8, count), ('fill', 0, count, 8, 0), ('filled', count))
    wanted(f, ('addr', 0, 8), ('addr', count - 1, count + 7), ('sum', (15 + count) * count // 2), ('abort', DONE))
    wanted(f, ('filled', 0), ('sum', 0), ('addr', count - 1, NO))
    f.tell('a million names taken back')
    wanted(f, ('fill', 0, count // 2, 100, count // 2), ('begin', DONE), ('fill', count // 4, count, 2000, count // 2))
    f.acts(('filled',), ('sum',), ('abort',), ('filled',), ('sum',), ('addr', count // 2 - 1), ('addr', count // 2))
    f.tell('half of a million names taken back')
    f.acts(('begin',), ('fill', count // 2, count, 1 << 31), ('commit',), ('filled',), ('sum',), ('addr', count - 1))
    wanted(f, ('begin', DONE), ('abort', DONE), ('filled', count))
    f.tell('half of a million names kept')


def rows(out):
    f = Acts(out, 'literals', Literals)
    for part in [a_transaction_taken_back, a_transaction_kept, conditions, large]:
        out.note(part.__name__.replace('_', ' '))
        part(f)
    out.note('rows that are none')
    f.case(3)
    for row in [('set', 1), ('addr', 4294967296), ('begin', 0), ('case', -1)]:
        f.no_row(*row)
