"""Frames and their registers in a store of words. docs/stores.md states the rules."""

from cases.acts import DONE, FULL, UNMET, Acts


class Frames:
    """Frames as lists: a method, a pc and registers. The last one is on top."""

    def __init__(self, words):
        self.words, self.held = words, []

    def push(self, method, registers):
        if sum(len(f[2]) + 4 for f in self.held) + registers + 4 > self.words:
            return FULL
        self.held.append([method, 0, [0] * registers])
        return DONE

    def pop(self):
        if not self.held:
            return UNMET
        self.held.pop()
        return DONE

    def has(self, register):
        return self.held and register < len(self.held[-1][2])

    def reg(self, register):
        return self.held[-1][2][register] if self.has(register) else UNMET

    def set(self, register, word):
        if not self.has(register):
            return UNMET
        self.held[-1][2][register] = word
        return DONE

    def method(self):
        return self.held[-1][0] if self.held else UNMET

    def pc(self):
        return self.held[-1][1] if self.held else UNMET

    def go(self, pc):
        if not self.held:
            return UNMET
        self.held[-1][1] = pc
        return DONE

    def depth(self):
        return len(self.held)


def wanted(f, *acts):
    """Acts with what a table wants of each."""
    for *words, want in acts:
        f.act(*words, want=want)


def frames_keep_their_words(f):
    f.case(20)
    wanted(f, ('depth', 0), ('push', 7, 2, DONE), ('set', 1, 5, DONE), ('go', 3, DONE), ('push', 8, 3, DONE))
    wanted(f, ('depth', 2), ('method', 8), ('pc', 0))
    f.tell('a frame on another')
    wanted(f, ('set', 0, 6, DONE), ('reg', 0, 6), ('reg', 1, 0), ('reg', 2, 0), ('reg', 3, UNMET), ('set', 3, 1, UNMET))
    f.tell('registers of the top frame')
    wanted(f, ('pop', DONE), ('depth', 1), ('method', 7), ('pc', 3), ('reg', 0, 0), ('reg', 1, 5), ('reg', 2, UNMET))
    f.tell('the frame below stands')
    wanted(f, ('pop', DONE), ('depth', 0), ('pop', UNMET), ('reg', 0, UNMET), ('set', 0, 1, UNMET))
    wanted(f, ('method', UNMET), ('pc', UNMET), ('go', 1, UNMET), ('depth', 0))
    f.tell('no frame has nothing')


def a_used_place_is_empty_again(f):
    f.case(6)
    wanted(f, ('push', 1, 2, DONE), ('set', 0, 0xffffffff, DONE), ('set', 1, 0xffffffff, DONE), ('go', 9, DONE))
    wanted(f, ('reg', 0, 0xffffffff), ('reg', 1, 0xffffffff), ('pc', 9), ('pop', DONE))
    wanted(f, ('push', 2, 2, DONE), ('reg', 0, 0), ('reg', 1, 0), ('pc', 0), ('method', 2))
    f.tell('a used place is empty again')


def pushes_at_the_limit(f):
    for limit, first, second, first_fits, second_fits in [
        (14, 2, 3, True, True),
        (13, 2, 3, True, True),
        (12, 2, 3, True, False),
        (6, 2, 0, True, False),
        (5, 2, 1, False, True),
        (4, 0, 0, True, False),
        (3, 0, 0, False, False),
        (65543, 65535, 0, True, True),
        (65538, 65535, 0, False, True),
        (0, 0, 0, False, False),
    ]:
        f.case(limit)
        wanted(f, ('depth', 0), ('push', 1, first, DONE if first_fits else FULL))
        wanted(f, ('push', 2, second, DONE if second_fits else FULL), ('depth', first_fits + second_fits))
        f.act('method', want=2 if second_fits else 1 if first_fits else UNMET)
        f.tell('%d words, frames of %d and of %d registers' % (limit, first, second))


def the_last_of_many_registers(f):
    f.case(65539)
    wanted(f, ('push', 1, 65535, DONE), ('set', 65534, 8, DONE), ('reg', 65534, 8), ('reg', 65533, 0), ('reg', 65535, UNMET))
    wanted(f, ('push', 2, 0, FULL), ('method', 1), ('reg', 65534, 8))
    f.tell('the last of many registers')


def large(f):
    """As many words as a run may have, all of them taken: 255 frames of the largest size, and one of what is left."""
    f.case(16777216)
    for method in range(255):
        wanted(f, ('push', method, 65535, DONE), ('set', 65534, method + 1000, DONE))
    wanted(f, ('push', 255, 65535, FULL), ('push', 255, 64768, FULL), ('push', 255, 64767, DONE), ('push', 256, 0, FULL))
    wanted(f, ('depth', 256), ('reg', 64766, 0), ('method', 255), ('reg', 64767, UNMET))
    f.tell('16,777,216 words of frames')
    for method in reversed(range(255)):
        wanted(f, ('pop', DONE), ('method', method), ('reg', 65534, method + 1000), ('reg', 65533, 0), ('pc', 0))
    wanted(f, ('depth', 1), ('pop', DONE), ('depth', 0))
    f.tell('and all of them away again')


def rows(out):
    f = Acts(out, 'frames', Frames)
    for part in [frames_keep_their_words, a_used_place_is_empty_again, pushes_at_the_limit, the_last_of_many_registers, large]:
        out.note(part.__name__.replace('_', ' '))
        part(f)
    out.note('rows that are none')
    f.case(20)
    for row in [('push', 1, 65536), ('push', 1), ('reg', 65536), ('depth', 0), ('case', 'x')]:
        f.no_row(*row)
