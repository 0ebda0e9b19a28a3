"""Writes Dalvik Executable files, version 035, from tables of numbers, with all parts in one order.

It is written from docs/dex-format.md and from that order, and shares nothing with the program that it tests:

    the header, the tables, the map; lists of types, code items, strings, class data, static values

Lists of types and code items stand at multiples of four, and equal lists of types and equal static values stand once. Numbers
of variable width are as short as they can be, and what pads is zero.
"""

import struct
from dataclasses import dataclass, field
from typing import NamedTuple, Optional

from dexfile import mutf8, sign, sleb, uleb, units_of

MOST_BYTES = 1 << 24
NO_INDEX = 0xFFFFFFFF


class TooLong(Exception):
    """The file would have more than 16 MiB."""


class HandlerOffset(Exception):
    """A range cannot say where its list of handlers stands."""


class Range(NamedTuple):
    first: int
    size: int
    handlers: int


class Handlers(NamedTuple):
    """A list of handlers: pairs of a type and a unit, and the unit of a last handler, if any."""
    typed: tuple
    last: Optional[int]


@dataclass
class Body:
    registers: int
    ins: int
    outs: int
    units: list
    ranges: list = field(default_factory=list)
    lists: list = field(default_factory=list)


@dataclass
class Class:
    """A class. Values are a kind, an argument and a number each, fields an id and flags, methods an id, flags and a code."""
    ty: int
    flags: int
    parent: Optional[int] = None
    faces: tuple = ()
    values: tuple = ()
    statics: list = field(default_factory=list)
    instances: list = field(default_factory=list)
    directs: list = field(default_factory=list)
    virtuals: list = field(default_factory=list)

    def methods(self):
        return self.directs + self.virtuals

    def has_members(self):
        return bool(self.statics or self.instances or self.directs or self.virtuals)


@dataclass
class Tables:
    """Strings are texts, types the numbers of strings; a prototype is a short form, a result and parameters; fields and methods
    are a class, a type or a prototype, and a name."""
    strings: list = field(default_factory=list)
    types: list = field(default_factory=list)
    protos: list = field(default_factory=list)
    fields: list = field(default_factory=list)
    methods: list = field(default_factory=list)
    classes: list = field(default_factory=list)


def halves(numbers):
    return struct.pack('<%dH' % len(numbers), *numbers)


def words(*numbers):
    return struct.pack('<%dI' % len(numbers), *numbers)


def string_item(text):
    plain = text.isascii() and '\0' not in text
    return uleb(len(text) if plain else len(units_of(text))) + (text.encode() if plain else mutf8(text)) + b'\0'


def value_bytes(kind, argument, number):
    return bytes([argument << 5 | kind]) + (b'' if kind in (0x1E, 0x1F) else number.to_bytes(argument + 1, 'little'))


def handlers_and_places(lists):
    """The bytes of lists of handlers, and where each of them stands among these."""
    out, places = bytearray(uleb(len(lists))), []
    for typed, last in lists:
        places.append(len(out))
        out += sleb(len(typed) if last is None else -len(typed)) + b''.join(uleb(ty) + uleb(to) for ty, to in typed)
        out += b'' if last is None else uleb(last)
    return bytes(out), places


class Layout:
    """Where the parts of a file stand, and its bytes. Bytes can be made where it is not too long and all ranges are reached."""

    def __init__(self, tables):
        self.tables = tables
        counts = [len(t) for t in (tables.strings, tables.types, tables.protos, tables.fields, tables.methods, tables.classes)]
        self.begins, at = [], 112
        for count, width in zip(counts, (4, 4, 12, 8, 8, 32)):
            self.begins.append(at)
            at += count * width
        self.counts, self.map_at = counts, at
        lists = list(dict.fromkeys(
            types for types in [tuple(p[2]) for p in tables.protos] + [tuple(c.faces) for c in tables.classes] if types))
        arrays = list(dict.fromkeys(tuple(c.values) for c in tables.classes if c.values))
        codes = [body for c in tables.classes for _, _, body in c.methods() if body is not None]
        listing = sum(c.has_members() for c in tables.classes)
        kinds = [1] + counts + [1, len(lists), len(codes), len(tables.strings), listing, len(arrays)]
        self.at = at + 4 + 12 * sum(count > 0 for count in kinds)
        self.data = bytearray()
        self.list_at = {types: self.add(words(len(types)) + halves(types), 4) for types in lists}
        self.are_reached = True
        self.code_at = [self.add(self.code_item(body), 4) for body in codes]
        self.string_at = [self.add(string_item(text)) for text in tables.strings]
        left, self.members_at = iter(self.code_at), []
        for c in tables.classes:
            self.members_at.append(self.add(self.class_data(c, left)) if c.has_members() else 0)
        self.array_at = {
            values: self.add(uleb(len(values)) + b''.join(value_bytes(*value) for value in values)) for values in arrays}
        first = [self.list_at.values(), self.code_at, self.string_at, filter(None, self.members_at), self.array_at.values()]
        offsets = [0] + self.begins + [self.map_at] + [min(places, default=0) for places in first]
        numbers = [0, 1, 2, 3, 4, 5, 6, 0x1000, 0x1001, 0x2001, 0x2002, 0x2000, 0x2005]
        self.items = [item for item in zip(numbers, kinds, offsets) if item[1]]

    def add(self, content, alignment=1):
        """Adds a thing; its place."""
        gap = -self.at % alignment
        self.data += bytes(gap) + content
        self.at += gap + len(content)
        return self.at - len(content)

    def code_item(self, body):
        out = halves([body.registers, body.ins, body.outs, len(body.ranges)]) + words(0, len(body.units)) + halves(body.units)
        if not body.ranges:
            return out
        lists, places = handlers_and_places(body.lists)
        out += bytes(len(body.units) % 2 * 2)
        for first, size, handlers in body.ranges:
            self.are_reached = self.are_reached and places[handlers] < 1 << 16
            out += words(first) + halves([size, places[handlers] & 0xFFFF])
        return out + lists

    def class_data(self, c, codes):
        """The members of a class; the offset of each code is the next that is left."""
        out = bytearray(b''.join(uleb(len(part)) for part in (c.statics, c.instances, c.directs, c.virtuals)))
        for part in (c.statics, c.instances):
            before = 0
            for number, flags in part:
                out += uleb(number - before) + uleb(flags)
                before = number
        for part in (c.directs, c.virtuals):
            before = 0
            for number, flags, body in part:
                out += uleb(number - before) + uleb(flags) + uleb(0 if body is None else next(codes))
                before = number
        return bytes(out)

    def ids(self):
        """The tables."""
        t = self.tables
        yield words(*self.string_at)
        yield words(*t.types)
        for short, result, params in t.protos:
            yield words(short, result, self.list_at.get(tuple(params), 0))
        for owner, kind, name in t.fields + t.methods:
            yield halves([owner, kind]) + words(name)
        for c, members in zip(t.classes, self.members_at):
            yield words(c.ty, c.flags, NO_INDEX if c.parent is None else c.parent, self.list_at.get(tuple(c.faces), 0))
            yield words(NO_INDEX, 0, members, self.array_at.get(tuple(c.values), 0))

    def write(self):
        if self.at > MOST_BYTES:
            raise TooLong
        if not self.are_reached:
            raise HandlerOffset
        tables = [number for count, begin in zip(self.counts, self.begins) for number in (count, begin if count else 0)]
        header = b'dex\n035\0' + bytes(24) + words(self.at, 112, 0x12345678, 0, 0, self.map_at, *tables, self.at - self.map_at, self.map_at)
        items = words(len(self.items)) + b''.join(halves([kind, 0]) + words(count, offset) for kind, count, offset in self.items)
        return sign(header + b''.join(self.ids()) + items + self.data)


def tables_of(file):
    """The tables of a file that dexfile.py describes."""
    string, ty = file.string_no, file.type_no

    def body_of(code):
        numbers = {id(handlers): k for k, handlers in enumerate(code.lists())}
        lists = [Handlers(tuple((ty[caught], to) for caught, to in typed), last) for typed, last in code.lists()]
        distinct = list(dict.fromkeys(lists))
        ranges = [Range(first, size, distinct.index(lists[numbers[id(handlers)]])) for first, size, handlers in code.tries]
        return Body(code.registers, code.ins, code.outs, file.code_units(code), ranges, distinct)

    def value_of(f):
        content = file.value(f)
        return content[0] & 31, content[0] >> 5, int.from_bytes(content[1:], 'little')

    def class_of(c):
        given = [f.value is not None for f in c.statics]
        count = len(given) - given[::-1].index(True) if any(given) else 0
        row = lambda f: (file.field_no[c.name, f.name, f.ty], f.flags)
        method = lambda m: (file.method_no[c.name, m.name, m.params, m.ret], m.flags, m.code and body_of(m.code))
        return Class(
            ty[c.name], c.flags, ty[c.parent] if c.parent else None, tuple(ty[face] for face in c.faces),
            tuple(value_of(f) for f in c.statics[:count]), [row(f) for f in c.statics], [row(f) for f in c.instances],
            [method(m) for m in c.directs], [method(m) for m in c.virtuals])

    return Tables(
        file.strings, [string[t] for t in file.types],
        [(string[short_of(params, ret)], ty[ret], [ty[p] for p in params]) for params, ret in file.protos],
        [(ty[c], ty[t], string[n]) for c, n, t in file.fields],
        [(ty[c], file.proto_no[params, ret], string[n]) for c, n, params, ret in file.methods],
        [class_of(c) for c in file.classes])


def short_of(params, ret):
    """The short form of a prototype."""
    return ''.join('L' if t[0] in 'L[' else t for t in (ret,) + tuple(params))
