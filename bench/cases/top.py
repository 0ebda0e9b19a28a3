"""The top call: what it answers for words, over stores and sinks, and over copies of the worked file. docs/commands.md
states the answers."""

import hashlib
import struct

from cases import altered, shared
from cases.calls import DONE, NOT_BUILT, USAGE, Calls, limited, rule
from cases.five import five

# A call that ends well, one whose last step prints and that tells two lines, and one over a file that breaks a rule.
WHOLE_RUN = ('lazy', 'five.dex', 'LT;', '11')
LIMITED_RUN = ('lazy', 'five.dex', 'LT;', '10')
BROKEN_RUN = ('lazy', 'cut.dex', 'LT;', '11')

# Words that are no command.
NO_COMMANDS = [
    (),
    ('',),
    ('--help',),
    ('lazy',),
    ('lazy', 'five.dex'),
    ('lazy', 'five.dex', 'LT;'),
    ('lazy', 'five.dex', 'LT;', '11', '11'),
    ('eager', 'five.dex', 'LT;', '11'),
    ('Lazy', 'five.dex', 'LT;', '11'),
    ('', 'five.dex', 'LT;', '11'),
    ('--help', 'five.dex', 'LT;', '11'),
    ('lazy', '-x', 'LT;', '11'),
    ('lazy', '-', 'LT;', '11'),
    ('lazy', '-five.dex', 'LT;', '11'),
    ('lazy', 'five.dex', '-LT;', '11'),
    ('five.dex', 'LT;', '11', 'lazy'),
]

# Limits on steps, and the answers under them.
LIMITS = [
    ('0', limited('', 0)),
    ('7', limited('', 7)),
    ('9', limited('', 9)),
    ('10', limited('5\n', 10)),
    ('11', DONE),
    ('12', DONE),
    ('1000000000000', DONE),
    ('1000000000001', USAGE),
    ('18446744073709551627', USAGE),
    ('99999999999999999999999', USAGE),
    ('01', USAGE),
    ('011', USAGE),
    ('00', USAGE),
    ('+1', USAGE),
    ('-1', USAGE),
    ('1 ', USAGE),
    ('1_1', USAGE),
    ('0x11', USAGE),
    ('', USAGE),
    ('\u0661\u0661', USAGE),
]

# Names of files and of main classes, and the answers over them.
NAMES = [
    ('five.dex', 'LT;', DONE),
    ('cut.dex', 'LT;', rule(1, 111, 'cut.dex')),
    ('other.dex', 'LT;', (3, '', 'missing other.dex\n')),
    ('@five.dex', 'LT;', (3, '', 'missing @five.dex\n')),
    ('five-.dex', 'LT;', (3, '', 'missing five-.dex\n')),
    ('FIVE.DEX', 'LT;', (3, '', 'missing FIVE.DEX\n')),
    ('', 'LT;', (3, '', 'missing \n')),
    ('five.dex', 'LU;', NOT_BUILT),
    ('five.dex', 'T', NOT_BUILT),
    ('five.dex', '', NOT_BUILT),
]

# The words, the calls of the store that fail, and the answer. The file is read once.
STORES = [
    (WHOLE_RUN, '1', (4, '', 'read fault five.dex\n')),
    (('lazy', 'other.dex', 'LT;', '11'), '1', (4, '', 'read fault other.dex\n')),
    (WHOLE_RUN, '2', DONE),
]

# The room of the output, its call that fails, and the answer.
OUTPUTS = [
    (99, '1', (16, '', 'output fault\n')),
    (0, '', (16, '', 'output fault\n')),
    (1, '', (16, '5', 'output fault\n')),
    (1, '2', (16, '5', 'output fault\n')),
    (2, '2', DONE),
]

# Calls that tell lines: the words, the status, the output, and the pieces of the lines, each a write.
LINES = [
    ('limit', LIMITED_RUN, 13, '5\n', ['limit steps\n', 'made ', '10', ' steps\n']),
    ('rule', BROKEN_RUN, 6, '', ['dex ', 'cut.dex', ': rule ', '1', ' at ', '111', '\n']),
]

# Calls whose error stream fails at once: the words, the calls of the store and of the output that fail, the status and
# the output.
SILENT = [
    (WHOLE_RUN, '', '', 0, '5\n'),
    (WHOLE_RUN, '', '1', 16, ''),
    (WHOLE_RUN, '1', '', 4, ''),
    (BROKEN_RUN, '', '', 6, ''),
    (('lazy', 'other.dex', 'LT;', '11'), '', '', 3, ''),
    (('lazy', 'five.dex', 'LU;', '11'), '', '', 19, ''),
    (('lazy', 'five.dex', 'LT;', '+1'), '', '', 2, ''),
]

# The first file of a chain, as docs/dex-format.md states it: its names, and its classes with what they stand below.
FIRST_NAMES = [
    'Ljava/lang/Object;', 'Lpi/Out;', '[Ljava/lang/String;', 'V', 'I', 'print', 'main', '<clinit>']

# The published sums: of which bytes, and what they are.
ADLER = (b'Wikipedia', 0x11E60398)
SHA1 = (b'abc', 'a9993e364706816aba3e25717850c26c9cd0d89d')


def both_files(calls, heading):
    """The worked file, and its first 111 bytes under another name."""
    calls.case(heading)
    calls.file('cut.dex')
    calls.out.row('cut', 111)
    calls.file('five.dex')


def phrase(texts):
    return ' '.join(t or "''" for t in texts) or 'no words'


def words(calls):
    both_files(calls, 'words that are no command')
    for texts in NO_COMMANDS:
        calls.words(*texts)
        calls.run('no command: ' + phrase(texts), USAGE)
    calls.out.note('limits on steps')
    for steps, answer in LIMITS:
        calls.words('lazy', 'five.dex', 'LT;', steps)
        calls.run("limit '%s'" % steps, answer)
    calls.out.note('names of files and of main classes')
    for name, main, answer in NAMES:
        calls.words('lazy', name, main, '11')
        calls.run("names '%s' '%s'" % (name, main), answer)


def faults(calls):
    both_files(calls, 'stores that fail')
    for texts, fails, answer in STORES:
        calls.words(*texts)
        calls.out.row('store', fails)
        calls.run('store fails call %s: %s' % (fails, phrase(texts)), answer)
    both_files(calls, 'outputs that fail')
    calls.words(*WHOLE_RUN)
    for room, fails, answer in OUTPUTS:
        calls.out.row('out', room, fails)
        calls.run('output of room %d fails call %s' % (room, fails or 'none'), answer)
    both_files(calls, 'error streams that fail hold a front, and change no status')
    for what, texts, status, output, pieces in LINES:
        calls.words(*texts)
        for fails in range(1, len(pieces) + 2):
            calls.out.row('err', 4096, fails)
            calls.run('%s told, write %d fails' % (what, fails), (status, output, ''.join(pieces[:fails - 1])))
        whole = ''.join(pieces)
        for room in range(len(whole) + 1):
            calls.out.row('err', room)
            calls.run('%s told into %d bytes' % (what, room), (status, output, whole[:room]))
    calls.out.row('err', 4096, 1)
    for texts, store_fails, out_fails, status, output in SILENT:
        calls.words(*texts)
        calls.out.row('store', store_fails)
        calls.out.row('out', 4096, out_fails)
        calls.run('silent: status %d' % status, (status, output, ''))


def contents(calls):
    """What a store has behind a call, which pins the worked file too, and the sums of files that rows alter."""
    both_files(calls, 'the store stands')
    good = five()
    calls.out.row('show', 'cut.dex five.dex other.dex')
    calls.words(*WHOLE_RUN)
    shown = [('cut.dex', good[:111]), ('five.dex', good)]
    for title, verb in (('two calls over one store', 'run'), ('two calls over one store, again', 'again')):
        calls.out.under(title)
        calls.out.row(verb)
        calls.want(title, DONE, *shown)
        calls.out.wanted[-1] += ' other.dex is not there'
    calls.case('the published sums')
    text, sum32 = ADLER
    calls.file('adler', '-')
    calls.put(0, bytes(12) + text)
    calls.out.row('sum')
    signed, sha1 = SHA1
    calls.file('sha1', '-')
    calls.put(0, bytes(32) + signed)
    calls.out.row('sign')
    calls.file('abc', '-')
    calls.put(0, signed)
    calls.out.row('show', 'adler sha1 abc')
    calls.run('published sums', USAGE,
              ('adler', bytes(8) + struct.pack('<I', sum32) + text),
              ('sha1', bytes(12) + bytes.fromhex(sha1) + signed),
              ('abc', signed))
    assert calls.out.wanted[-1].endswith('abc 3 ' + sha1) and hashlib.sha1(signed).hexdigest() == sha1


def first_file(out):
    out.note('the first file')
    out.under('first file')
    out.row('first', 'Lpi/Out;')
    out.want('first file: %d names, 2 classes, 1 file' % len(FIRST_NAMES))
    for number, name in enumerate(FIRST_NAMES):
        out.want('first file: name %d %s' % (number, name))
    out.want('first file: not small for Lpi/Out;')


def rows(out):
    calls = Calls(out)
    out.data('five.dex', five())
    words(calls)
    faults(calls)
    contents(calls)
    first_file(out)
    altered.rows(calls)
    shared.large(calls)
    shared.full(calls)
