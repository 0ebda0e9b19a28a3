"""Texts of jobs and of selections, as docs/job.md states them."""

from collections import namedtuple

from dexfile import Class, File

from cases.rows import spelled, told
from cases.units import told_units

OBJECT = 'Ljava/lang/Object;'

Image = namedtuple('Image', 'dex img at load selection budget', defaults=['a', 'i', 0, 0, None, 1])
Job = namedtuple('Job', 'images dexes heap frames steps main args', defaults=[(), ('a',), (0, 16), 16, 0, 'M', ()])

# A text, and the job that it says or the number of its first wrong line.
JOBS = [
    ('the shortest job', b'dex a\nheap 0 16\nframes 16\nsteps 0\nmain M\n', Job()),
    ('no newline at the end, empty lines between', b'\n\ndex a\n\nheap 0 16\nframes 16\nsteps 0\nmain M', Job()),
    ('an image and no other file', b'image a i 0 0 - 1\nheap 0 16\nframes 16\nsteps 0\nmain M', Job([Image()], [])),
    ('a tab behind arg', b'image a i 0 0 s 1\nimage a j 0 0 s 1\ndex a\nheap 0 16\nframes 16\nsteps 0\nmain M\narg\targ', 8),
    ('empty lines are counted', b'\n\ndex a\n\nheap 0 1\n', 5),
    ('no line', b'', 1),
    ('an empty line', b'\n', 2),
    ('heap is wanting', b'dex a', 2),
    ('frames are wanting behind an empty line', b'dex a\nheap 0 16\n\n', 4),
    ('main is wanting', b'dex a\nheap 0 16\nframes 16\nsteps 0\n', 5),
    ('heap before dex', b'heap 0 16\ndex a\n', 1),
    ('dex before image', b'dex a\nimage a i 0 0 - 1\n', 2),
    ('frames before heap', b'dex a\nframes 16\nheap 0 16\n', 2),
    ('dex behind heap', b'dex a\nheap 0 16\ndex b\n', 3),
    ('heap twice', b'dex a\nheap 0 16\nheap 0 16\n', 3),
    ('steps before frames', b'dex a\nheap 0 16\nsteps 0\nframes 16\n', 3),
    ('frames twice', b'dex a\nheap 0 16\nframes 16\nframes 16\n', 4),
    ('main before steps', b'dex a\nheap 0 16\nframes 16\nmain M\nsteps 0\n', 4),
    ('steps twice', b'dex a\nheap 0 16\nframes 16\nsteps 0\nsteps 0\nmain M\n', 5),
    ('arg before main', b'dex a\nheap 0 16\nframes 16\nsteps 0\narg x\nmain M\n', 5),
    ('main twice', b'dex a\nheap 0 16\nframes 16\nsteps 0\nmain M\nmain M\n', 6),
    ('dex behind arg', b'dex a\nheap 0 16\nframes 16\nsteps 0\nmain M\narg x\ndex b\n', 7),
    ('dex without a field', b'dex\n', 1),
    ('dex with an empty field', b'dex \n', 1),
    ('dex with two fields', b'dex a b\n', 1),
    ('a space before dex', b' dex a\n', 1),
    ('two spaces behind dex', b'dex  a\n', 1),
    ('two spaces in heap', b'dex a\nheap 0  16\n', 2),
    ('main with an empty field', b'dex a\nheap 0 16\nframes 16\nsteps 0\nmain \n', 5),
    ('image with an empty selection', b'image a i 0 0  1\n', 1),
    ('image with seven fields', b'image a i 0 0 - 1 2\n', 1),
    ('a kind that is none', b'what a\n', 1),
    ('an image and eight files', b'image a i 0 0 - 1\n' + b'dex a\n' * 8, 9),
    ('nine images', b''.join(b'image a %c 0 0 - 1\n' % c for c in b'bcdefghij'), 9),
    ('nine files', b'dex a\n' * 9, 9),
    ('eight files', b'dex a\n' * 8 + b'heap 0 16\nframes 16\nsteps 0\nmain M', Job(dexes=['a'] * 8)),
    ('an argument that is no UTF-8', b'dex a\nheap 0 16\nframes 16\nsteps 0\nmain M\narg \xff\n', 6),
    ('a wrong line before one that is no UTF-8', b'dex a\nheap 0 1\nframes 16\nsteps 0\nmain \xc0\x80\n', 2),
    ('a newline within a character', b'dex \xc3\n\xa9\n', 1),
    ('characters of two, three and four bytes',
     b'dex \xc3\xa9\nheap 0 16\nframes 16\nsteps 0\nmain \xf0\x9f\x98\x80\narg \xe2\x82\xac',
     Job(dexes=['\u00e9'], main='\U0001f600', args=['\u20ac'])),
    ('carriage return and tab are ordinary, and an argument is empty',
     b'dex a\rb\tc\nheap 0 16\nframes 16\nsteps 0\nmain M\r\narg ', Job(dexes=['a\rb\tc'], main='M\r', args=[''])),
    ('arg without a space', b'dex a\nheap 0 16\nframes 16\nsteps 0\nmain M\narg', 6),
    ('an argument holds spaces', b'dex a\nheap 0 16\nframes 16\nsteps 0\nmain M\narg  a b \n', Job(args=[' a b '])),
    ('each part of a job',
     b'image @core i 4096 0x2000 s 7\nimage a j 1 2 - 8\ndex b\nheap 3 17\nframes 18\nsteps 19\nmain LA;\n'
     b'arg x \xf0\x9f\x98\x80\narg ',
     Job([Image('@core', 'i', 4096, 8192, 's', 7), Image('a', 'j', 1, 2, None, 8)], ['b'], (3, 17), 18, 19, 'LA;',
         ['x \U0001f600', ''])),
]

# Lines of images and of files alone, so that line 3 is wanting where they are right.
NAMES = [
    ('two images of a file, one selection', 'image a i 0 0 s 1\nimage a j 0 0 - 1', 3),
    ('an image name twice', 'image a i 0 0 s 1\nimage a i 0 0 s 1', 2),
    ('a file named as an image before', 'image a i 0 0 s 1\nimage i j 0 0 s 1', 2),
    ('a selection named as an image before', 'image a i 0 0 s 1\nimage a j 0 0 i 1', 2),
    ('an image named as its file', 'image a i 0 0 s 1\nimage a a 0 0 s 1', 2),
    ('an image named as a file before', 'image a i 0 0 s 1\nimage b a 0 0 s 1', 2),
    ('an image named as a selection before', 'image a i 0 0 s 1\nimage a s 0 0 - 1', 2),
    ('a first image named as the job', 'image a job 0 0 s 1\nimage b j 0 0 - 1', 1),
    ('a second image named as the job', 'image a i 0 0 s 1\nimage a job 0 0 s 1', 2),
    ('an image named as its own new file', 'image a i 0 0 s 1\nimage b b 0 0 s 1', 2),
    ('an image named as its own selection', 'image a i 0 0 s 1\nimage b j 0 0 j 1', 2),
    ('an image named with a dash', 'image a i 0 0 - 1\nimage a - 0 0 - 1', 3),
    ('an image name that begins with @', 'image a i 0 0 - 1\nimage a @i 0 0 - 1', 2),
    ('a selection name that begins with @', 'image a i 0 0 - 1\nimage @core j 0 0 @s 1', 3),
    ('a file and a selection named as the job', 'image a i 0 0 - 1\nimage job j 0 0 job 1', 3),
    ('an image of @cor', 'image a i 0 0 - 1\nimage @cor j 0 0 - 1', 2),
    ('an image of @core2', 'image a i 0 0 - 1\nimage @core2 j 0 0 - 1', 2),
    ('dex named as an image', 'image a i 0 0 - 1\ndex i', 2),
    ('dex named as the file of an image', 'image a i 0 0 - 1\ndex a', 3),
    ('dex named as a selection', 'image a i 0 0 s 1\ndex s', 3),
    ('dex named as the job', 'image a i 0 0 - 1\ndex job', 3),
    ('dex @core twice', 'dex @core\ndex @core', 3),
    ('dex @ alone', 'dex @core\ndex @', 2),
]

# A text with a number in each place: the usual one, and the line in which it stands.
NUMBERED = 'image a i {at} {load} - {budget}\nheap {base} {bytes}\nframes {frames}\nsteps {steps}\nmain M\n'
USUAL = {'at': 0, 'load': 0, 'budget': 1, 'base': 0, 'bytes': 16, 'frames': 16, 'steps': 0}
LINES = {'at': 1, 'load': 1, 'budget': 1, 'base': 2, 'bytes': 2, 'frames': 3, 'steps': 4}

# A place, what is written there, and the number that it is; None where it is none that may stand there.
NUMBERS = [
    *[(base, text, number) for base in ('at', 'load', 'base') for text, number in [
        ('0', 0), ('0x0', 0), ('4294967295', 4294967295), ('0xffffffff', 4294967295),
        ('4294967296', None), ('0x100000000', None)]],
    ('at', '0x00000001', 1),
    ('at', '0x000000001', None),
    ('load', '18446744073709551616', None),
    ('base', '18446744073709551616', None),
    ('budget', '1', 1),
    ('budget', '0x1', 1),
    ('budget', '1000000000', 1000000000),
    ('budget', '0x3b9aca00', 1000000000),
    ('budget', '0', None),
    ('budget', '0x0', None),
    ('budget', '1000000001', None),
    ('budget', '0x3b9aca01', None),
    ('bytes', '16', 16),
    ('bytes', '0x10', 16),
    ('bytes', '268435456', 268435456),
    ('bytes', '0x10000000', 268435456),
    ('bytes', '15', None),
    ('bytes', '0xf', None),
    ('bytes', '268435457', None),
    ('bytes', '0x10000001', None),
    ('frames', '16', 16),
    ('frames', '0x10', 16),
    ('frames', '16777216', 16777216),
    ('frames', '0x1000000', 16777216),
    ('frames', '15', None),
    ('frames', '0xf', None),
    ('frames', '16777217', None),
    ('frames', '0x1000001', None),
    ('steps', '0', 0),
    ('steps', '0x0', 0),
    ('steps', '1000000000000', 1000000000000),
    ('steps', '0xffffffff', 4294967295),
    ('steps', '1000000000001', None),
    ('steps', '0xe8d4a51000', None),
    ('steps', '0xffffffffff', None),
    ('at', '', None),
    ('at', '00', None),
    ('at', '01', None),
    ('bytes', '016', None),
    ('at', '0x', None),
    ('at', '0xA', None),
    ('at', '0Xa', None),
    ('frames', '0x1F', None),
    ('at', '+1', None),
    ('frames', '-16', None),
    ('steps', '1a', None),
    ('steps', '1 ', None),
    ('steps', '0x1g', None),
    ('steps', 'x1', None),
]

# A right text, and for each two of its lines the first that is wrong where they are exchanged: the earlier place, unless
# the line that came there may stand there, and the later place or one between is wrong. Two of a kind may be exchanged.
ORDERED = ['image a i 0 0 - 1', 'image b j 0 0 - 1', 'dex c', 'heap 0 16', 'frames 16', 'steps 0', 'main M', 'arg x', 'arg y']
EXCHANGES = [
    (1, 2, Job([Image('b', 'j'), Image('a', 'i')], ['c'], args=['x', 'y'])),
    (1, 3, 2), (1, 4, 1), (1, 5, 1), (1, 6, 1), (1, 7, 1), (1, 8, 1), (1, 9, 1),
    (2, 3, 3), (2, 4, 3), (2, 5, 2), (2, 6, 2), (2, 7, 2), (2, 8, 2), (2, 9, 2),
    (3, 4, 4), (3, 5, 3), (3, 6, 3), (3, 7, 3), (3, 8, 3), (3, 9, 3),
    (4, 5, 4), (4, 6, 4), (4, 7, 4), (4, 8, 4), (4, 9, 4),
    (5, 6, 5), (5, 7, 5), (5, 8, 5), (5, 9, 5),
    (6, 7, 6), (6, 8, 6), (6, 9, 6),
    (7, 8, 7), (7, 9, 7),
    (8, 9, Job([Image('a', 'i'), Image('b', 'j')], ['c'], args=['y', 'x'])),
]

# Selections of two files: LA; and LB; are classes of the first, LC; is one of the second, and LD; is a name of the first
# and no class. The number of a file, a text, and the classes or the first wrong line.
SELECTIONS = [
    ('no line', 0, b'', []),
    ('empty lines', 0, b'\n\n', []),
    ('both classes', 0, b'LA;\nLB;\n', [0, 1]),
    ('both classes in the other order', 0, b'\nLB;\n\nLA;', [1, 0]),
    ('the class of the second file', 1, b'LC;', [2]),
    ('a class of the second file for the first', 0, b'LA;\nLC;', 2),
    ('a class of the first file for the second', 1, b'LA;\nLC;', 1),
    ('a file that is not there', 2, b'LA;', 1),
    ('a class twice', 0, b'LA;\n\nLB;\nLA;\n', 4),
    ('a name of no class', 0, b'LA;\nLD;', 2),
    ('no name of the program', 0, b'\n\nLE;', 3),
    ('a space behind a class', 0, b'LA; ', 1),
    ('no UTF-8', 0, b'LA;\n\xff', 2),
]


def line(number):
    return 'line %d breaks a rule' % number


def said(job):
    """A job as the program tells it."""
    name = lambda text: '[%s]' % told(text)
    units = lambda text: '[%s]' % told_units(text)
    parts = ['image %s %s %d %d %s %d' % (name(i.dex), name(i.img), i.at, i.load, name(i.selection) if i.selection else '-',
                                          i.budget) for i in job.images]
    parts += ['dex ' + name(dex) for dex in job.dexes]
    parts += ['heap %d %d' % job.heap, 'frames %d' % job.frames, 'steps %d' % job.steps, 'main ' + units(job.main)]
    return ', '.join(parts + ['arg ' + units(arg) for arg in job.args])


def job(out, title, text, wanted):
    """A text, and the job that it says or its first wrong line."""
    out.row('text', spelled(text))
    told_job(out, title, wanted)


def told_job(out, title, wanted):
    out.under(title)
    out.row('job')
    out.want('%s: %s' % (title, said(wanted) if isinstance(wanted, Job) else line(wanted)))


def selection(out, title, file, text, wanted):
    out.row('text', spelled(text))
    told_selection(out, title, file, wanted)


def told_selection(out, title, file, wanted):
    out.under(title)
    out.row('select', file)
    classes = '[%s]' % ', '.join('ClassNo(%d)' % c for c in wanted) if isinstance(wanted, list) else line(wanted)
    out.want('%s: %s' % (title, classes))


def numbers(out):
    for place, text, number in NUMBERS:
        title = '%s [%s]' % (place, told(text))
        wanted = LINES[place]
        if number is not None:
            n = {**USUAL, place: number}
            wanted = Job([Image('a', 'i', n['at'], n['load'], None, n['budget'])], [], (n['base'], n['bytes']), n['frames'],
                         n['steps'])
        job(out, title, NUMBERED.format(**{**USUAL, place: text}), wanted)


def exchanges(out):
    for first, second, wanted in EXCHANGES:
        lines = list(ORDERED)
        lines[first - 1], lines[second - 1] = lines[second - 1], lines[first - 1]
        job(out, 'lines %d and %d exchanged' % (first, second), '\n'.join(lines) + '\n', wanted)


def arguments(out):
    """Up to 64, and one more."""
    for count in range(66):
        out.row('text', spelled('dex a\nheap 0 16\nframes 16\nsteps 0\nmain M\n'))
        out.row('repeat', count, spelled('arg x\n'))
        told_job(out, '%d arguments' % count, Job(args=['x'] * count) if count <= 64 else 70)


def large_jobs(out):
    """Many lines, and long ones."""
    rest = 'dex a\nheap 0 16\nframes 16\nsteps 0\nmain '
    for title, end, wanted in [('a job behind 100000 empty lines', 'M\n', Job()),
                               ('a wrong line behind 100000 empty ones', '\n', 100005)]:
        out.row('text', '\\e')
        out.row('repeat', 100000, '\\n')
        out.row('repeat', 1, spelled(rest + end))
        told_job(out, title, wanted)
    out.row('text', spelled(rest))
    out.row('repeat', 3000, 'LA;')
    out.row('repeat', 1, spelled('\narg '))
    out.row('repeat', 1000, spelled('a\u00e9 \U0001f600'))
    told_job(out, 'long lines', Job(main='LA;' * 3000, args=['a\u00e9 \U0001f600' * 1000]))


def selections(out):
    out.data('selected.dex', File([Class('LA;', 1, OBJECT), Class('LB;', 1, OBJECT)], types=['LD;']).write())
    out.data('selected-behind.dex', File([Class('LC;', 1, OBJECT)]).write())
    out.row('case')
    out.row('file', 'first', 'selected.dex')
    out.row('file', 'second', 'selected-behind.dex')
    for title, file, text, wanted in SELECTIONS:
        selection(out, 'selection of ' + title, file, text, wanted)
    out.row('case')
    out.row('file', 'first', 'selected.dex')
    out.row('file', 'second', 'selected.dex')
    selection(out, 'selection of classes that both files have, for the first', 0, 'LB;\nLA;\n', [1, 0])
    selection(out, 'selection of classes that both files have, for the second', 1, 'LB;\nLA;\n', 1)


def large_selections(out):
    """All classes of a large file, the last first; and each but the last a second time."""
    names = ['LC%03d;' % n for n in range(600)]
    out.data('selected-many.dex', File([Class(name, 1, OBJECT) for name in names]).write())
    out.row('case')
    out.row('file', 'many', 'selected-many.dex')
    backwards = '\n'.join(reversed(names)) + '\n'
    selection(out, 'selection of 600 classes', 0, backwards, list(reversed(range(600))))
    selection(out, 'selection of 600 classes and one of them again', 0, backwards + 'LC001;\n', 601)
    out.row('text', '\\e')
    out.row('repeat', 100000, '\\n')
    out.row('repeat', 1, spelled('LC007;\n'))
    told_selection(out, 'selection behind 100000 empty lines', 0, [7])
    out.row('repeat', 1, spelled('LC007;\n'))
    told_selection(out, 'selection of a class twice behind 100000 empty lines', 0, 100002)


def rows(out):
    out.note('whole jobs, and the first wrong line')
    out.row('case')
    for title, text, wanted in JOBS:
        job(out, title, text, wanted)
    out.under('a job without memory')
    out.row('memory')
    out.want('a job without memory: out of memory')
    out.note('names that may stand beside each other')
    for title, text, wanted in NAMES:
        job(out, title, text, wanted)
    out.note('numbers')
    numbers(out)
    out.note('two lines exchanged')
    exchanges(out)
    out.note('arguments')
    arguments(out)
    out.note('large jobs')
    large_jobs(out)
    out.note('selections')
    selections(out)
    large_selections(out)
