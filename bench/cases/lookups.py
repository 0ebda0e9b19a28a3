"""Look-ups in programs, by docs/dex-format.md, "What program files say" and "The first file of the chain".

The files are written by dexfile.py. What they say is worked out by hand beside each: names are new texts in the order of
units, types new descriptors in that order, and classes, fields and methods are counted as the files define them.
"""

import hashlib
import os
import sys

sys.path.insert(0, os.path.dirname(os.path.dirname(os.path.abspath(__file__))))
from dexfile import Class, Field, File, Method

from cases.rows import spelled

OBJECT = 'Ljava/lang/Object;'
PUBLIC, STATIC, NATIVE = 1, 8, 256


def native(name, params, ret):
    return Method(name, params, ret, PUBLIC | NATIVE)


def counts(files, names, types, classes, fields, methods):
    return '%d files, %d names, %d types, %d classes, %d fields, %d methods' % (files, names, types, classes, fields, methods)


# Its strings in order: I, LA;, Ljava/lang/Object;, V, VI, f, run, stop: the names 0 to 7.
ONE = File([Class('LA;', PUBLIC, OBJECT, instances=[Field('f', 'I', PUBLIC)],
                  virtuals=[native('run', (), 'V'), native('stop', ('I',), 'V')])])

# Its strings in order: I, IL, LA;, LB;, LC;, V, count, f, go, run. The new ones are IL, LB;, LC;, count, go: 8 to 12.
TWO = File([Class('LB;', PUBLIC, 'LA;', statics=[Field('count', 'I', PUBLIC | STATIC)], instances=[Field('f', 'LA;', PUBLIC)],
                  virtuals=[native('go', ('LA;',), 'I'), native('run', (), 'V')]),
            Class('LC;', PUBLIC, 'LB;', virtuals=[native('run', (), 'V')])])

# Files of texts alone.
BEFORE = File([], strings=['LZ;'])
TEXTS = File([], strings=['', 'LA;', 'LB;', 'ru', 'run'])
TWO_TEXTS = File([], strings=['LB;', 'run'])
ONE_TEXT = File([], strings=['LA;'])

# Many classes, each with a static field and two methods, and many texts of which each second one is new to them.
CLASSES = 1000
MANY = File([Class('Lmany/C%04d;' % i, PUBLIC, OBJECT, statics=[Field('s%04d' % i, 'I', PUBLIC | STATIC)],
                   virtuals=[native('a%04d' % i, (), 'V'), native('b%04d' % i, ('I',), 'V')]) for i in range(CLASSES)])
MORE = File([], strings=['s%04d' % i for i in range(500, 500 + 2 * CLASSES)] + ['z%05d' % i for i in range(3000)])

NO_NUMBERS = [
    ('name 0', 'none'), ('type 0', 'none'), ('class 0', 'none'), ('method 0', 'none'), ('field 0', 'none'),
    ('method-no 0 0', 'none'), ('field-no 0 0', 'none'), ('own-field 0 0 0', 'none'), ('names-to 0', 'none'), ('types 0', 'none'),
    ('find-type 0', 'none'), ('find-class 0', 'none'), ('find-name run', 'none'), ('find-name \\e', 'none'), ('find-each', '0 of 0'),
]

TWO_FILES = [
    ('program', counts(2, 13, 6, 3, 3, 5)),
    # names
    ('name 0', 'I'), ('name 1', 'LA;'), ('name 2', OBJECT), ('name 3', 'V'), ('name 4', 'VI'), ('name 5', 'f'), ('name 6', 'run'),
    ('name 7', 'stop'), ('name 8', 'IL'), ('name 9', 'LB;'), ('name 10', 'LC;'), ('name 11', 'count'), ('name 12', 'go'),
    ('name 13', 'none'), ('name 4294967295', 'none'),
    ('find-name LB;', '9'), ('find-name LB', 'none'), ('find-name LB;;', 'none'), ('find-name LA;', '1'), ('find-name run', '6'),
    ('find-name go', '12'), ('find-name I', '0'), ('find-name \\e', 'none'), ('find-each', '13 of 13'),
    # types: I, LA;, Object, V, and LB;, LC;
    ('type 0', '0'), ('type 1', '1'), ('type 2', '2'), ('type 3', '3'), ('type 4', '9'), ('type 5', '10'), ('type 6', 'none'),
    ('find-type 9', '4'), ('find-type 10', '5'), ('find-type 3', '3'), ('find-type 5', 'none'), ('find-type 13', 'none'),
    # what each file brought
    ('names-to 0', '8'), ('names-to 1', '13'), ('names-to 2', 'none'),
    ('types 0', '[NameNo(0), NameNo(1), NameNo(2), NameNo(3)]'),
    ('types 1', '[NameNo(0), NameNo(1), NameNo(9), NameNo(10), NameNo(3)]'),
    ('types 2', 'none'), ('types 256', 'none'),
    # classes
    ('class 0', 'file 0, name 1, 1 fields, 2 methods, below 2'),
    ('class 1', 'file 1, name 9, 2 fields, 2 methods, below 1'),
    ('class 2', 'file 1, name 10, 0 fields, 1 methods, below 9'),
    ('class 3', 'none'),
    ('find-class 1', '0'), ('find-class 9', '1'), ('find-class 10', '2'), ('find-class 2', 'none'), ('find-class 13', 'none'),
    # methods: run and stop of LA;, go and run of LB;, run of LC;
    ('method 0', 'class 0, place 0'), ('method 1', 'class 0, place 1'), ('method 2', 'class 1, place 0'),
    ('method 3', 'class 1, place 1'), ('method 4', 'class 2, place 0'), ('method 5', 'none'),
    ('method-no 0 0', '0'), ('method-no 0 1', '1'), ('method-no 1 0', '2'), ('method-no 1 1', '3'), ('method-no 2 0', '4'),
    ('method-no 2 1', 'none'), ('method-no 3 0', 'none'),
    # fields: f of LA;, count and f of LB;
    ('field 0', 'class 0, place 0'), ('field 1', 'class 1, place 0'), ('field 2', 'class 1, place 1'), ('field 3', 'none'),
    ('field-no 0 0', '0'), ('field-no 1 0', '1'), ('field-no 1 1', '2'), ('field-no 1 2', 'none'), ('field-no 2 0', 'none'),
    ('field-no 3 0', 'none'),
    ('own-field 0 5 0', '0'), ('own-field 1 11 0', '0'), ('own-field 1 5 1', '1'), ('own-field 1 5 0', 'none'),
    ('own-field 2 5 1', 'none'), ('own-field 0 6 0', 'none'), ('own-field 3 5 0', 'none'),
]

FIRST_NAMES = [OBJECT, 'Lpi/Out;', '[Ljava/lang/String;', 'V', 'I', 'print', 'main', '<clinit>']

# The names of the first file are in no order of their units.
FIRST_FILE = [('first-file', counts(1, 8, 5, 2, 0, 1))] + [
    ('find-name ' + name, str(n)) for n, name in enumerate(FIRST_NAMES)] + [
    ('name %d' % n, name) for n, name in enumerate(FIRST_NAMES)] + [
    ('find-name <clini', 'none'), ('find-name <clinit>>', 'none'), ('find-name Ljava/lang/String;', 'none'), ('find-each', '8 of 8'),
    ('types 0', '[%s]' % ', '.join('NameNo(%d)' % n for n in range(5))), ('find-type 4', '4'), ('find-type 5', 'none'),
    ('class 0', 'file 0, name 0, 0 fields, 0 methods, below none'),
    ('class 1', 'file 0, name 1, 0 fields, 1 methods, below 0'),
    ('find-class 1', '1'), ('find-class 2', 'none'), ('method 0', 'class 1, place 0'), ('method-no 1 0', '0'), ('method-no 0 0', 'none'),
]


def texts(file):
    return ['find-name ' + spelled(text) for text in file.strings]


CASES = [
    ('the program of no file', [], [('program', counts(0, 0, 0, 0, 0, 0))] + NO_NUMBERS),
    ('two files that share names and types', ['lookups-one', 'lookups-two'], TWO_FILES),
    ('one file', ['lookups-one'], [
        ('program', counts(1, 8, 4, 1, 1, 2)), ('find-name LB;', 'none'), ('find-each', '8 of 8'), ('names-to 0', '8'), ('names-to 1', 'none')]),
    ('a file twice brings its names and types once', ['lookups-texts', 'lookups-texts'], [
        ('program', counts(2, 5, 0, 0, 0, 0)), ('find-each', '5 of 5'), ('names-to 0', '5'), ('names-to 1', '5'), ('types 1', '[]')]),
    ('the first file', [], FIRST_FILE),
    ('texts behind a text', ['lookups-before', 'lookups-texts'], [('program', counts(2, 6, 0, 0, 0, 0)), ('find-name LZ;', '0')] + [
        (row, str(1 + n)) for n, row in enumerate(texts(TEXTS))] + [('find-name r', 'none'), ('find-name runs', 'none')]),
    ('texts alone', ['lookups-texts'], [('program', counts(1, 5, 0, 0, 0, 0)), ('find-name LZ;', 'none')] + [
        (row, str(n)) for n, row in enumerate(texts(TEXTS))]),
    ('texts of two files', ['lookups-two-texts', 'lookups-one-text'], [
        ('program', counts(2, 3, 0, 0, 0, 0)), ('find-name run', '1'), ('find-name LB;', '0'), ('find-name LA;', '2'),
        ('find-name \\x07', 'none')]),
    ('texts that are the same and that differ', [], [
        ('same run run', 'run true'), ('same run ru', 'run false'), ('same run runs', 'run false'), ('same run rum', 'run false'),
        ('same \\e \\e', ' true'), ('same \\e a', ' false'), ('same \\xff \\xff', '\\u00ff true'), ('same \\xff \\x7f', '\\u00ff false')]),
]


def long_texts(out):
    """Texts of some thousand units."""
    title, text = 'long texts', 'abcdefghij' * 500
    digest = '5000 bytes ' + hashlib.sha1(text.encode()).hexdigest()
    tell(out, title, [], [
        ('same %s %s' % (text, text), digest + ' true'), ('same %s %sb' % (text, text[:-1]), digest + ' false'),
        ('same %s %s' % (text, text[:-1]), digest + ' false')])


def many(out):
    """A program with some thousand names."""
    title = 'many names'
    new = [text for text in MORE.strings if text not in MANY.string_no]
    name = {text: n for n, text in enumerate(MANY.strings + new)}
    last = CLASSES - 1
    steps = [
        ('program', counts(2, len(name), len(MANY.types), CLASSES, CLASSES, 2 * CLASSES)),
        ('find-each', '%d of %d' % (len(name), len(name))),
        ('names-to 0', str(len(MANY.strings))),
        ('find-name none', 'none'),
        ('class %d' % last, 'file 0, name %d, 1 fields, 2 methods, below %d' % (name['Lmany/C%04d;' % last], name[OBJECT])),
        ('method %d' % (2 * last + 1), 'class %d, place 1' % last), ('method %d' % (2 * CLASSES), 'none'),
        ('method-no %d 1' % last, str(2 * last + 1)), ('field-no 700 0', '700'), ('field 700', 'class 700, place 0'),
    ]
    for text in ['Lmany/C0000;', 'Lmany/C0500;', 'a0999', 's0000', 's0500', 's2499', 'z00000', 'z02999', OBJECT]:
        steps += [('find-name ' + text, str(name[text])), ('name %d' % name[text], text)]
    for i in (0, 500, last):
        steps += [('find-class %d' % name['Lmany/C%04d;' % i], str(i)),
                  ('find-type %d' % name['Lmany/C%04d;' % i], str(MANY.type_no['Lmany/C%04d;' % i])),
                  ('own-field %d %d %d' % (i, name['s%04d' % i], name['I']), '0')]
    tell(out, title, ['lookups-many', 'lookups-more'], steps)


def tell(out, title, files, steps):
    out.row('case')
    out.under(title, '-short')
    for n, file in enumerate(files):
        out.row('file', n, file + '.dex')
    for row, answer in steps:
        out.row(row)
        out.want('%s: %s' % (title, answer))


def rows(out):
    for name, file in [('one', ONE), ('two', TWO), ('before', BEFORE), ('texts', TEXTS), ('two-texts', TWO_TEXTS), ('one-text', ONE_TEXT),
                       ('many', MANY), ('more', MORE)]:
        out.data('lookups-%s.dex' % name, file.write())
    for title, files, steps in CASES:
        tell(out, title, files, steps)
    long_texts(out)
    many(out)
