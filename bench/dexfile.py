"""Writes Dalvik Executable files, version 035, from plain descriptions.

It shares nothing with the reader: it is written from the format's tables alone, so that files made by it test the
reader from outside. Units of code may name what they index: ('string', text), ('type', descriptor),
('field', class, name, type), ('method', class, name, parameters, result).
"""

import hashlib
import struct
import zlib


def uleb(n):
    out = bytearray()
    while True:
        byte = n & 0x7F
        n >>= 7
        if n:
            out.append(byte | 0x80)
        else:
            out.append(byte)
            return bytes(out)


def sleb(n):
    out = bytearray()
    while True:
        byte = n & 0x7F
        n >>= 7
        if (n == 0 and not byte & 0x40) or (n == -1 and byte & 0x40):
            out.append(byte)
            return bytes(out)
        out.append(byte | 0x80)


def units_of(text):
    data = text.encode('utf-16-le', 'surrogatepass')
    return list(struct.unpack('<%dH' % (len(data) // 2), data))


def mutf8(text):
    out = bytearray()
    for unit in units_of(text):
        if 0 < unit < 0x80:
            out.append(unit)
        elif unit < 0x800:
            out += bytes([0xC0 | unit >> 6, 0x80 | unit & 0x3F])
        else:
            out += bytes([0xE0 | unit >> 12, 0x80 | unit >> 6 & 0x3F, 0x80 | unit & 0x3F])
    return bytes(out)


def short(ty):
    return 'L' if ty[0] in 'L[' else ty


def once(things):
    """Each object once, in the order in which they come. Objects that are equal and not the same stay beside each other."""
    return list({id(thing): thing for thing in things}.values())


class Code:
    """The code of a method: units, and ranges (first, count, handlers), where handlers is (typed pairs, last).

    Ranges with equal handlers have one list. A code that is shared is written once for all methods that have it, and any
    other once for each of them."""

    def __init__(self, registers, ins, outs, units, tries=(), extra_lists=(), debug=0, shared=False):
        self.registers, self.ins, self.outs, self.units = registers, ins, outs, units
        self.tries, self.extra_lists, self.debug, self.shared = list(tries), list(extra_lists), debug, shared

    def lists(self):
        """The lists of handlers, each object once."""
        return once([handlers for _, _, handlers in self.tries] + self.extra_lists)


class Block:
    """Bytes that stand among the code items as they are, in which items may lie one over the other."""

    def __init__(self, content):
        self.content = content


class CodeAt:
    """The code of a method is at a place in a block, or, without a block, at a place in the file. It names nothing."""

    def __init__(self, place, block=None):
        self.place, self.block = place, block


class Method:
    def __init__(self, name, params, ret, flags, code=None):
        self.name, self.params, self.ret, self.flags, self.code = name, tuple(params), ret, flags, code


class Field:
    """A field; value is None or the bytes of an encoded value, in which index names are as in units."""

    def __init__(self, name, ty, flags, value=None):
        self.name, self.ty, self.flags, self.value = name, ty, flags, value


class Class:
    def __init__(self, name, flags, parent, faces=(), statics=(), instances=(), directs=(), virtuals=(), source=0xFFFFFFFF, annotations=0):
        self.name, self.flags, self.parent, self.faces = name, flags, parent, tuple(faces)
        self.statics, self.instances = list(statics), list(instances)
        self.directs, self.virtuals = list(directs), list(virtuals)
        self.source, self.annotations = source, annotations


class File:
    def __init__(self, classes, strings=(), types=(), methods=(), extra_items=()):
        self.classes = classes
        self.extra_strings, self.extra_types, self.extra_methods = list(strings), list(types), list(methods)
        self.extra_items = list(extra_items)
        self.places = {}
        self.collect()

    def named(self):
        for c in self.classes:
            for f in c.statics:
                if f.value is not None and f.value[0] in ('string', 'type'):
                    yield (f.value[0], f.value[1])
        for code in once(m.code for c in self.classes for m in c.directs + c.virtuals if isinstance(m.code, Code)):
            yield from once(u for u in code.units if isinstance(u, tuple))
            for typed, _ in code.lists():
                for ty in {ty for ty, _ in typed}:
                    yield ('type', ty)

    def collect(self):
        strings, types, protos, fields, methods = set(self.extra_strings), set(self.extra_types), set(), set(), set()
        for m in self.extra_methods:
            methods.add(m)
        for c in self.classes:
            types.add(c.name)
            if c.parent:
                types.add(c.parent)
            for f in c.statics + c.instances:
                fields.add((c.name, f.name, f.ty))
            for m in c.directs + c.virtuals:
                methods.add((c.name, m.name, m.params, m.ret))
        for faces in once(c.faces for c in self.classes):
            types.update(faces)
        for what in self.named():
            kind = what[0].rstrip('32')
            if kind == 'string':
                strings.add(what[1])
            elif kind == 'type':
                types.add(what[1])
            elif kind == 'field':
                fields.add(what[1:])
            else:
                methods.add(what[1:])
        for c, n, t in fields:
            types.update((c, t))
            strings.add(n)
        for c, n, ps, r in methods:
            types.add(c)
            strings.add(n)
            protos.add((ps, r))
        for ps, r in protos:
            types.update(ps)
            types.add(r)
            strings.add(short(r) + ''.join(short(p) for p in ps))
        strings |= types
        self.strings = sorted(strings, key=units_of)
        self.string_no = {s: i for i, s in enumerate(self.strings)}
        self.types = sorted(types, key=units_of)
        self.type_no = {t: i for i, t in enumerate(self.types)}
        no = self.type_no
        self.protos = sorted(protos, key=lambda p: (no[p[1]], [no[t] for t in p[0]]))
        self.proto_no = {p: i for i, p in enumerate(self.protos)}
        self.fields = sorted(fields, key=lambda f: (no[f[0]], self.string_no[f[1]], no[f[2]]))
        self.field_no = {f: i for i, f in enumerate(self.fields)}
        self.methods = sorted(methods, key=lambda m: (no[m[0]], self.string_no[m[1]], self.proto_no[(m[2], m[3])]))
        self.method_no = {m: i for i, m in enumerate(self.methods)}

    def number(self, what):
        kind = what[0]
        if kind.startswith('string'):
            return self.string_no[what[1]]
        if kind == 'type':
            return self.type_no[what[1]]
        if kind == 'field':
            return self.field_no[what[1:]]
        return self.method_no[what[1:]]

    def code_units(self, code):
        out, numbers = [], {id(u): self.number(u) for u in once(u for u in code.units if isinstance(u, tuple))}
        for u in code.units:
            if isinstance(u, tuple):
                n = numbers[id(u)]
                out.append(n & 0xFFFF)
                if u[0] == 'string32':
                    out.append(n >> 16)
            else:
                out.append(u & 0xFFFF)
        return out

    def lists_of(self, code):
        """The bytes of a code's lists of handlers, and where the list of each object stands among them."""
        listed = {id(handlers): (tuple(handlers[0]), handlers[1]) for handlers in code.lists()}
        distinct = dict.fromkeys(listed.values())
        body = bytearray(uleb(len(distinct)))
        for typed, last in distinct:
            distinct[typed, last] = len(body)
            pairs = {pair: uleb(self.type_no[pair[0]]) + uleb(pair[1]) for pair in set(typed)}
            body += sleb(-len(typed) if last is not None else len(typed)) + b''.join(pairs[pair] for pair in typed)
            if last is not None:
                body += uleb(last)
        return body, {which: distinct[handlers] for which, handlers in listed.items()}

    def code_item(self, code):
        """The bytes of a code item, and where in it its ranges and its lists of handlers stand where it has ranges."""
        units = self.code_units(code)
        out = bytearray(struct.pack('<HHHHII', code.registers, code.ins, code.outs, len(code.tries), code.debug, len(units)))
        out += struct.pack('<%dH' % len(units), *units)
        if not code.tries:
            return bytes(out), {}
        if len(units) % 2:
            out += b'\xab\xcd'
        tries, (body, at) = len(out), self.lists_of(code)
        for first, count, handlers in code.tries:
            out += struct.pack('<IHH', first, count, at[id(handlers)])
        lists = len(out)
        return bytes(out + body), {' tries': tries, ' lists': lists}

    def value(self, field):
        v = field.value
        if isinstance(v, bytes):
            return v
        kind, what = v
        n = self.number(v)
        size = max(1, (n.bit_length() + 7) // 8)
        return bytes([(size - 1) << 5 | (0x17 if kind == 'string' else 0x18)]) + n.to_bytes(size, 'little')

    def write(self):
        data = bytearray()
        tables = [len(self.strings), len(self.types), len(self.protos), len(self.fields), len(self.methods), len(self.classes)]
        widths = [4, 4, 12, 8, 8, 32]
        offsets, at = [], 112
        for n, w in zip(tables, widths):
            offsets.append(at)
            at += n * w
        begin = at
        items = []

        def here():
            return begin + len(data)

        def align():
            while here() % 4:
                data.append(0)

        kept = {}

        def code_place(code):
            """Where the code of a method stands, which is written unless it is shared and stands there already."""
            if isinstance(code, CodeAt) and code.block is None:
                return code.place, {}
            what = code.block if isinstance(code, CodeAt) else code
            if id(what) in kept:
                place, parts = kept[id(what)]
            else:
                align()
                place = here()
                item, parts = (what.content, {}) if isinstance(what, Block) else self.code_item(what)
                data.extend(item)
                if isinstance(what, Block) or what.shared:
                    kept[id(what)] = place, parts
            return place + code.place if isinstance(code, CodeAt) else place, parts

        code_at = {}
        align()
        first = here()
        for c in self.classes:
            for m in c.directs + c.virtuals:
                if m.code:
                    name = c.name + '->' + m.name
                    place, parts = code_place(m.code)
                    code_at[(c.name, m.name, m.params, m.ret)] = place
                    self.places[name] = place
                    for part, behind in parts.items():
                        self.places[name + part] = place + behind
        count = len({place for place in code_at.values() if first <= place < here()})
        if count:
            items.append((0x2001, count, first))
        lists, list_at = {}, {}
        wanted = [ps for ps, _ in self.protos if ps] + [c.faces for c in self.classes if c.faces]
        align()
        first = here()
        for ts in once(wanted):
            if ts not in lists:
                align()
                lists[ts] = here()
                data += struct.pack('<I', len(ts)) + struct.pack('<%dH' % len(ts), *[self.type_no[t] for t in ts])
            list_at[id(ts)] = lists[ts]
        if lists:
            items.append((0x1001, len(lists), first))
        string_at = []
        first = here()
        for s in self.strings:
            string_at.append(here())
            data += uleb(len(units_of(s))) + mutf8(s) + b'\0'
        items.append((0x2002, len(self.strings), first))
        values_at = {}
        first = here()
        for c in self.classes:
            values = [f.value is not None for f in c.statics]
            if any(values):
                n = len(values) - values[::-1].index(True)
                values_at[c.name] = here()
                self.places[c.name + ' values'] = here()
                data += uleb(n)
                for f in c.statics[:n]:
                    self.places[c.name + '->' + f.name + ' value'] = here()
                    data += self.value(f)
        if values_at:
            items.append((0x2005, len(values_at), first))
        data_at = {}
        first = here()
        for c in self.classes:
            if c.statics or c.instances or c.directs or c.virtuals:
                data_at[c.name] = here()
                self.places[c.name + ' data'] = here()
                for part in (c.statics, c.instances, c.directs, c.virtuals):
                    data += uleb(len(part))
                for part in (c.statics, c.instances):
                    before = 0
                    for f in part:
                        n = self.field_no[(c.name, f.name, f.ty)]
                        self.places[c.name + '->' + f.name + ' row'] = here()
                        data += uleb(n - before)
                        self.places[c.name + '->' + f.name + ' flags'] = here()
                        data += uleb(f.flags)
                        before = n
                for part in (c.directs, c.virtuals):
                    before = 0
                    for m in part:
                        key = (c.name, m.name, m.params, m.ret)
                        n = self.method_no[key]
                        self.places[c.name + '->' + m.name + ' row'] = here()
                        data += uleb(n - before)
                        self.places[c.name + '->' + m.name + ' flags'] = here()
                        data += uleb(m.flags)
                        self.places[c.name + '->' + m.name + ' code'] = here()
                        data += uleb(code_at.get(key, 0))
                        before = n
        if data_at:
            items.append((0x2000, len(data_at), first))
        for kind, body in self.extra_items:
            items.append((kind, 1, here()))
            data += body
        align()
        map_at = here()
        kinds = [1, 2, 3, 4, 5, 6]
        head = [(0, 1, 0)] + [(k, n, o) for k, n, o in zip(kinds, tables, offsets) if n]
        items = head + items + [(0x1000, 1, map_at)]
        data += struct.pack('<I', len(items))
        for kind, n, offset in items:
            data += struct.pack('<HHII', kind, 0, n, offset)
        ids = bytearray()
        for o in string_at:
            ids += struct.pack('<I', o)
        for t in self.types:
            ids += struct.pack('<I', self.string_no[t])
        for ps, r in self.protos:
            ids += struct.pack('<III', self.string_no[short(r) + ''.join(short(p) for p in ps)], self.type_no[r], list_at.get(id(ps), 0))
        for c, n, t in self.fields:
            ids += struct.pack('<HHI', self.type_no[c], self.type_no[t], self.string_no[n])
        for c, n, ps, r in self.methods:
            ids += struct.pack('<HHI', self.type_no[c], self.proto_no[(ps, r)], self.string_no[n])
        for i, c in enumerate(self.classes):
            self.places[c.name + ' def'] = offsets[5] + 32 * i
            parent = self.type_no[c.parent] if c.parent else 0xFFFFFFFF
            ids += struct.pack('<8I', self.type_no[c.name], c.flags, parent, list_at.get(id(c.faces), 0), c.source,
                               c.annotations, data_at.get(c.name, 0), values_at.get(c.name, 0))
        size = begin + len(data)
        head = bytearray(112)
        head[0:8] = b'dex\n035\0'
        struct.pack_into('<III', head, 32, size, 112, 0x12345678)
        struct.pack_into('<I', head, 52, map_at)
        for k, (n, o) in enumerate(zip(tables, offsets)):
            struct.pack_into('<II', head, 56 + 8 * k, n, o if n else 0)
        struct.pack_into('<II', head, 104, len(data), begin)
        return sign(head + ids + data)


class Texts:
    """A file of strings alone, whose texts lie as they do in the given bytes: where in them each of the strings begins."""

    def __init__(self, data, starts):
        self.data, self.starts = data, starts

    def write(self):
        begin = 112 + 4 * len(self.starts)
        data = bytearray(self.data) + bytes(-len(self.data) % 4)
        map_at = begin + len(data)
        data += struct.pack('<I', 2) + struct.pack('<HHII', 0, 0, 1, 0) + struct.pack('<HHII', 1, 0, len(self.starts), 112)
        head = bytearray(112)
        head[0:8] = b'dex\n035\0'
        struct.pack_into('<III', head, 32, begin + len(data), 112, 0x12345678)
        struct.pack_into('<III', head, 52, map_at, len(self.starts), 112)
        struct.pack_into('<II', head, 104, len(data), begin)
        return sign(head + struct.pack('<%dI' % len(self.starts), *[begin + start for start in self.starts]) + data)


def sign(file):
    file = bytearray(file)
    file[12:32] = hashlib.sha1(bytes(file[32:])).digest()
    struct.pack_into('<I', file, 8, zlib.adler32(bytes(file[12:])))
    return bytes(file)
