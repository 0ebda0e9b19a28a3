"""What the system reads from and writes to: stores and sinks in memory, those over the system, and the numbers of the
statuses. docs/outside.md and docs/commands.md state them.

A case is a title and rows, with what each is answered; a row that only sets something up is answered nothing."""

import hashlib

from cases.rows import told

NOT_THERE = 'not there'
MISSING, TOO_LARGE, FAILED = 'Missing', 'TooLarge', 'Failed'
WRITTEN, ALL = 'written', 'took all'
MIB = 1 << 20


def content(text):
    """A content as it is told: in brackets, or a long one by its length and digest."""
    if len(text) > 64:
        return '%d bytes %s' % (len(text), hashlib.sha1(text).hexdigest())
    return '[%s]' % told(text)


def took(count):
    return 'took %d' % count


MEMORY_STORES = [
    ('memory keeps contents', [
        ('memory', None),
        ('get a', NOT_THERE),
        ('put a one', None),
        ('put b two', None),
        ('put a three', None),
        ('get a', content(b'three')),
        ('read b 3', content(b'two')),
        ('read b 2', TOO_LARGE),
        ('read c 9', MISSING),
        ('write c \\e', WRITTEN),
        ('read c 0', content(b'')),
    ]),
    ('memory fails by number', [
        ('memory 2 3', None),
        ('write a one', WRITTEN),
        ('write a two', FAILED),
        ('put b put\\shas\\sno\\snumber', None),
        ('read a 9', FAILED),
        ('read a 9', content(b'one')),
        ('get b', content(b'put has no number')),
    ]),
    ('memory keeps a large content', [
        ('memory', None),
        ('write a ab %d' % (MIB // 2), WRITTEN),
        ('put b cd %d' % (MIB // 2), None),
        ('get a', content(b'ab' * (MIB // 2))),
        ('read b %d' % MIB, content(b'cd' * (MIB // 2))),
        ('read b %d' % (MIB - 1), TOO_LARGE),
    ]),
]

MEMORY_SINKS = [
    ('sink runs out of room', [
        ('sink 5 2', None),
        ('piece abc', took(3)),
        ('piece x', FAILED),
        ('piece def', took(2)),
        ('piece f', FAILED),
        ('piece \\e', took(0)),
        ('bytes', content(b'abcde')),
    ]),
    ('put_all writes the whole or a front', [
        ('sink 9', None),
        ('whole whole', ALL),
        ('whole \\sfront', FAILED),
        ('bytes', content(b'whole fro')),
    ]),
    ('put_all goes on to the call that fails', [
        ('sink 9 2', None),
        ('whole \\e', ALL),
        ('whole one', ALL),
        ('whole two', FAILED),
        ('whole three', ALL),
        ('bytes', content(b'onethree')),
    ]),
    ('sink takes large pieces', [
        ('sink %d' % MIB, None),
        ('piece ab 32768', took(65536)),
        ('whole c %d' % (MIB - 65537), ALL),
        ('piece de', took(1)),
        ('piece f', FAILED),
        ('bytes', content(b'ab' * 32768 + b'c' * (MIB - 65537) + b'd')),
    ]),
]

# NAME/inside is a path through a file, and . is a folder.
FILES = [
    ('files of the system', [
        ('files', None),
        ('read a 9', MISSING),
        ('write a/inside x', FAILED),
        ('write a a\\slonger\\scontent', WRITTEN),
        ('write a short', WRITTEN),
        ('read a 5', content(b'short')),
        ('read a 4', TOO_LARGE),
        ('read a %d' % ((1 << 64) - 1), content(b'short')),
        ('read a/inside 9', FAILED),
        ('read . 9', FAILED),
        ('write . x', FAILED),
        ('write a \\e', WRITTEN),
        ('read a 0', content(b'')),
        ('remove a', None),
        ('read a 9', MISSING),
    ]),
    ('a large file', [
        ('write b ab %d' % (MIB // 2), WRITTEN),
        ('read b %d' % MIB, content(b'ab' * (MIB // 2))),
        ('read b %d' % (MIB - 1), TOO_LARGE),
        ('remove b', None),
    ]),
]

# A machine without a full device has no device that takes anything.
STREAMS = [
    ('a full device', [
        ('device /dev/full', None),
        ('piece x', FAILED),
        ('whole more', FAILED),
    ]),
    ('standard error', [
        ('stderr', None),
        ('whole to\\sstandard\\serror\\n', ALL),
        ('piece \\e', took(0)),
    ]),
    ('a writer that takes two at a time', [('moody 0 2 never', None), ('piece four', took(2)), ('whole four', ALL)]),
    ('a writer that is interrupted', [('moody 3 9 never', None), ('piece four', took(4))]),
    ('a writer that takes nothing', [('moody 1 0 never', None), ('piece four', FAILED), ('piece \\e', took(0))]),
    ('a writer that fails', [('moody 2 9 write', None), ('piece four', FAILED)]),
    ('a writer that does not flush', [('moody 0 9 flush', None), ('piece four', FAILED)]),
    ('a writer of a large piece', [('moody 200 65536 never', None), ('piece ab 32768', took(65536))]),
    ('a writer of parts of a large piece', [('moody 200 4096 never', None), ('piece ab 32768', took(4096)), ('whole ab 32768', ALL)]),
]

STATUSES = [
    ('Done', 0), ('Uncaught', 1), ('Usage', 2), ('Missing', 3), ('ReadFault', 4), ('WriteFault', 5), ('Dex', 6), ('Verify', 7),
    ('Link', 8), ('Image', 9), ('Bases', 10), ('Job', 11), ('Asm', 12), ('Steps', 13), ('Heap', 14), ('Frames', 15),
    ('OutFault', 16), ('TooLarge', 17), ('Memory', 18), ('NotBuilt', 19), ('Unprintable', 20), ('Rebase', 21), ('Differs', 22)]


def follow(out, title, acts):
    out.note(title)
    for row, answer in acts:
        if answer is not None:
            out.under(title + ': ' + row)
        out.row(row)
        if answer is not None:
            out.want('%s: %s: %s' % (title, row, answer))


def standard_output(out):
    """What goes to standard output stands among the lines that are told."""
    title, text = 'standard output', 'to standard output\n'
    out.note(title)
    out.row('stdout')
    out.under(title + ': whole to\\sstandard\\soutput\\n')
    out.row('whole to\\sstandard\\soutput\\n')
    out.want(text.strip())
    out.want('%s: whole to\\sstandard\\soutput\\n: %s' % (title, ALL))
    out.under(title + ': piece \\e')
    out.row('piece \\e')
    out.want('%s: piece \\e: %s' % (title, took(0)))


def rows(out):
    for title, acts in MEMORY_STORES + MEMORY_SINKS + FILES:
        follow(out, title, acts)
    standard_output(out)
    for title, acts in STREAMS:
        follow(out, title, acts)
    out.under('')
    out.row('statuses')
    for name, number in STATUSES:
        out.want('status %s: %d' % (name, number))
