"""Measures how long the program takes for large files, and how much memory.

Makes valid files of 2, 4, 8 and 16 MiB, runs `PROGRAM lazy FILE MAIN STEPS` on each of them in the folder where the file
lies, and prints a table. A row has the size of the file in MiB, the least time of several runs in seconds, the most memory
that was resident in MiB, how many times the time of the file of half the size that is, and how the runs ended.

    python3 bench/performance.py [PROGRAM] [--shape SHAPE] [--sizes MIB ..] [--runs N] [--keep FOLDER] [--make]

PROGRAM is crates/pi_tool/out/pi_tool where none is given. The shape is `mixed` where none is named; `hostile` stands for
those of bench/hostile.py, and `all` for every shape. A shape and a size make the same file each time. With --keep the files
stay in a folder, and with --make nothing is run.

The files are valid and not small, so the program has to end with the status 19 and the line `not built`, or for want of
memory with the status 18 and the line `out of memory`. It is given 4 GiB of memory and a minute, and stopped where it takes
more of either.

It ends with 1 where a run ends in another way, where a file takes ten seconds or needs 768 MiB or more, or where it takes
more than 2.3 times as long as that of half its size and both ended alike; and else with 0.
"""

import argparse
import os
import resource
import signal
import subprocess
import sys
import tempfile
import threading
import time

from dexfile import Class, Code, Field, File, Method
from hostile import HOSTILE

MIB = 1 << 20
MOST_RATIO = 2.3
MOST_RESIDENT = 768 * MIB
MOST_SECONDS = 10
# What a run is given, more than it may take by the bounds, so that it is seen by how much they are broken.
GIVEN_SPACE = 4096 * MIB
GIVEN_SECONDS = 60
# How a run may end: its status and its line, and what the table says.
ENDS = {(19, b'not built\n'): 'not built', (18, b'out of memory\n'): 'out of memory'}
MAIN, STEPS = 'Lmain/Main;', '1000'

OBJECT, STRING = 'Ljava/lang/Object;', 'Ljava/lang/String;'
PUBLIC, STATIC, INTERFACE, ABSTRACT, CONSTRUCTOR = 0x1, 0x8, 0x200, 0x400, 0x10000
NOP, RETURN_VOID = 0x0000, 0x000E


def by_name(members):
    return sorted(members, key=lambda member: member.name)


def class_name(n):
    return 'Lpart%02d/group%02d/Class%05d;' % (n % 10, n % 97, n)


def face_name(n):
    return 'Lpart%02d/faces/Face%05d;' % (n % 10, n)


def words(ty):
    return 2 if ty == 'J' else 1


def parameters(n):
    """Some parameters: a few that many methods have, and others that few have."""
    if n % 3 == 0:
        return ('I', 'J', STRING, '[I', 'Z')[:n // 3 % 6]
    return (class_name(n // 5), 'I', '[J', OBJECT, 'J', 'S', STRING)[:n % 8]


def code(params, is_static, units, tries=()):
    """A code with room for what its method takes. A None stands for the second unit of an index of two."""
    ins = sum(words(ty) for ty in params) + (0 if is_static else 1)
    return Code(16 + ins, ins, 5, [unit for unit in units if unit is not None], tries)


def main_class():
    """A class that a caller can name."""
    params = ('[' + STRING,)
    return Class(MAIN, PUBLIC, OBJECT, directs=[Method('main', params, 'V', PUBLIC | STATIC, code(params, True, [RETURN_VOID]))])


def mixed_face(n):
    methods = [Method('asked%05d_%d' % (n, k), parameters(n + k), 'I', PUBLIC | ABSTRACT) for k in range(2)]
    return Class(face_name(n), PUBLIC | INTERFACE | ABSTRACT, OBJECT, virtuals=methods)


def arithmetic(n):
    """Constants, moves, branches and operations that name nothing."""
    return [
        0x12 | n % 16 << 8 | n % 7 << 12, 0x0113, n & 0x7FFF, 0x0214, n * 7 & 0xFFFF, n & 0x7FFF, 0x0315, n & 0x7FFF,
        0x0416, n & 0x7FFF, 0x0617, n & 0xFFFF, 0x1234, 0x0818, n & 0xFFFF, n * 3 & 0xFFFF, n * 5 & 0xFFFF, 0x0FFF, 0x0419, 0x4000,
        0x2101, 0x0302, 0x0001, 0x6404, 0x4307, 0x0090, 0x0201, 0x0791, 0x0302, 0x0092, 0x0403, 0x2195, 0x0403, 0x049B, 0x0806, 0x049D,
        0x0608, 0x21B0, 0x32B2, 0x84BB, 0x21D0, 0x0064, 0x01D8, 0x0702, 0x02DD, 0x0F03, 0x007B, 0x417D, 0x4581, 0x4084, 0x108D, 0x108E,
        0x108F, 0x0931, 0x0604, 0x2132, 0x0003, NOP, 0x0138, 0x0002, 0x0228, NOP, 0x0029, 0x0002, 0x002A, 0x0003, 0x0000,
    ]


def naming(n, name, k):
    """Instructions that name strings, types, fields and methods."""
    other = class_name(n // 2)
    number, text = ('field', name, 'count%05d' % n, 'I'), ('field', name, 'text%05d' % n, STRING)
    own = ('field', name, 'own%05d_0' % n, 'I')
    choose = ('method', name, 'choose%05d' % n, ('I',), 'I')
    return [
        0x001B, ('string32', 'the text %d that the class %05d shows where it works' % (k, n)), None,
        0x011B, ('string32', 'another text, \u00fc\u4e2d\u6587, number %05d of %d' % (n, k)), None,
        0x021A, ('string', '<clinit>'), 0x031C, ('type', name), 0x0322, ('type', other), 0x031F, ('type', other),
        0x3020, ('type', other), 0x0521, 0x6023, ('type', '[I'), 0x0644, 0x0106, 0x064B, 0x0106, 0x2024, ('type', '[I'), 0x0010,
        0x000C, 0x0325, ('type', '[I'), 0x0004, 0x000C, 0x0060, number, 0x0067, number, 0x0362, text, 0x0369, text,
        0x0352, own, 0x0359, own, 0x1071, choose, 0x0001, 0x000A, 0x0177, choose, 0x0002, 0x010A,
        0x1070, ('method', OBJECT, '<init>', (), 'V'), 0x0003, 0x031D, 0x031E,
    ]


def switching(n):
    """A packed switch, a sparse one and an array's data, with their payloads behind a return."""
    cases = 4 + n % 5
    head = [0x002B, None, 0, 0x002C, None, 0, 0x0626, None, 0, 0x000F]
    packed_at = len(head)
    packed = [0x0100, cases, n & 0xFFFF, 0] + [3, 0] * cases
    sparse_at = packed_at + len(packed)
    keys = [unit for case in range(cases) for unit in (case * 10 + n % 7, case)]
    sparse = [0x0200, cases] + keys + [6, 0] * cases
    array_at = sparse_at + len(sparse)
    array = [0x0300, 4, cases, 0] + [n & 0xFFFF, 1] * cases
    head[1], head[4], head[7] = packed_at, sparse_at - 3, array_at - 6
    return head + packed + sparse + array


def working(n, name, k):
    """A method's units, and ranges of them that have handlers."""
    units = naming(n, name, k) + arithmetic(n + k)
    first = len(units)
    units += [0x040D, 0x0427]
    tries = [(0, 10, (((OBJECT, first), (STRING, first)), first)), (20, 12, (((OBJECT, first),), None)), (40, 5, ((), first))]
    if len(units) % 2:
        units.append(NOP)
    return units + switching(n + k), tries


def mixed_class(n):
    name = class_name(n)
    parent = class_name(n // 2) if n % 3 == 1 else OBJECT
    faces = (face_name(n - n % 8),) if n % 4 == 0 else ()
    count = ('field', name, 'count%05d' % n, 'I')
    statics = [
        Field('count%05d' % n, 'I', PUBLIC | STATIC, bytes([0x24, n & 0xFF, n >> 8 & 0x7F])),
        Field('long%05d' % n, 'J', PUBLIC | STATIC, bytes([0x66, n & 0xFF, n >> 8 & 0xFF, 1, 0x80])),
        Field('table%05d' % n, '[I', PUBLIC | STATIC, bytes([0x1E])),
        Field('text%05d' % n, STRING, PUBLIC | STATIC, ('string', 'the first text of class %05d' % n)),
    ]
    instances = [Field('own%05d_%d' % (n, k), ty, PUBLIC) for k, ty in enumerate(('I', 'J', name))]
    directs = [
        Method('<clinit>', (), 'V', STATIC | CONSTRUCTOR, code((), True, [0x0060, count, 0x0067, count, RETURN_VOID])),
        Method('<init>', (), 'V', PUBLIC | CONSTRUCTOR, code((), False, [0x1070, ('method', parent, '<init>', (), 'V'), 0x0000, RETURN_VOID])),
        Method('choose%05d' % n, ('I',), 'I', PUBLIC | STATIC, code(('I',), True, switching(n))),
    ]
    virtuals = []
    for k in range(3):
        params = parameters(3 * n + k)
        virtuals.append(Method('work%05d_%d' % (n, k), params, ('I', 'V', 'J', name)[(n + k) % 4], PUBLIC, code(params, False, *working(n, name, k))))
    return Class(name, PUBLIC, parent, faces, by_name(statics), instances, by_name(directs), virtuals)


def mixed(count):
    """Classes with all that files have."""
    classes = [main_class()]
    for n in range(count):
        if n % 8 == 0:
            classes.append(mixed_face(n))
        classes.append(mixed_class(n))
    return File(classes)


def strings(count):
    """Little but strings of some forty characters."""
    texts = ['%08x is %s text of number %07d' % (n * 2654435761 % (1 << 32), ('a', 'the', '\u00e4\u4e2d')[n % 3], n) for n in range(40 * count)]
    return File([main_class(), plain_class(0)], texts)


def prefixes(count):
    """Strings that share all but their last characters."""
    return File([main_class(), plain_class(0)], ['a long text' * 100 + '%06d' % n for n in range(count)])


def plain_class(n):
    return Class(class_name(n), PUBLIC, OBJECT)


def small_codes(count):
    """Methods that only return."""
    classes = [main_class()]
    for n in range(count):
        methods = [Method('m%03d' % k, (), 'V', PUBLIC, code((), False, [RETURN_VOID])) for k in range(40)]
        classes.append(Class(class_name(n), PUBLIC, OBJECT, virtuals=methods))
    return File(classes)


def huge_code(count):
    """One code of instructions of a single unit."""
    units = ([NOP, 0x2101, NOP, 0x4307, NOP, 0x6504, 0x2101, 0x1012] * 128) * count + [RETURN_VOID]
    return File([main_class(), Class(class_name(0), PUBLIC, OBJECT, virtuals=[Method('work', (), 'V', PUBLIC, code((), False, units))])])


def invokes(count):
    """Codes full of calls of methods with many parameters."""
    params = ('I',) * 20
    method = ('method', class_name(0), 'work00000', params, 'V')
    units = [0x1574, method, 0x0000] * 2000 + [RETURN_VOID]
    classes = [main_class()]
    for n in range(count):
        classes.append(Class(class_name(n), PUBLIC, OBJECT, virtuals=[Method('work%05d' % n, params, 'V', PUBLIC, code(params, False, units))]))
    return File(classes)


def interfaces(count):
    """Classes with many interfaces, each in an order of its own."""
    faces = [face_name(n) for n in range(256)]
    classes = [main_class()] + [Class(name, PUBLIC | INTERFACE | ABSTRACT, OBJECT) for name in faces]
    for n in range(count):
        start, step = n % 256, 2 * (n // 256 % 128) + 1
        classes.append(Class(class_name(n), PUBLIC, OBJECT, tuple(faces[(start + step * k) % 256] for k in range(200))))
    return File(classes)


def fields(count):
    """Classes with thousands of fields."""
    types = sorted(['I', 'J', 'S', '[I', OBJECT, STRING, '[J', 'Z'])
    classes = [main_class()]
    for n in range(count):
        own = [Field('f%04d' % (k // 8), types[k % 8], PUBLIC) for k in range(8000)]
        classes.append(Class(class_name(n), PUBLIC, OBJECT, instances=own))
    return File(classes)


SHAPES = {
    'mixed': mixed,
    'strings': strings,
    'prefixes': prefixes,
    'small_codes': small_codes,
    'huge_code': huge_code,
    'invokes': invokes,
    'interfaces': interfaces,
    'fields': fields,
    **HOSTILE,
}


def file_of(shape, size):
    """The bytes of a file of a shape, at most and nearly so many."""
    make = SHAPES[shape]
    few, more = len(make(8).write()), len(make(16).write())
    count = (size - few) * 8 // (more - few) + 8
    while True:
        data = make(count).write()
        if len(data) <= size:
            return data
        count -= max(1, count * (len(data) - size) // size)


def limit():
    """Gives the program so much memory, which is no more for what it was started from."""
    resource.setrlimit(resource.RLIMIT_AS, (GIVEN_SPACE, GIVEN_SPACE))
    resource.setrlimit(resource.RLIMIT_CORE, (0, 0))


def end_of(status, said, seconds):
    """How a run ended, in words."""
    if os.WIFEXITED(status):
        return ENDS.get((os.WEXITSTATUS(status), said)) or 'status %d, %r' % (os.WEXITSTATUS(status), said[:60])
    if seconds >= GIVEN_SECONDS:
        return 'no end in %d seconds' % GIVEN_SECONDS
    return 'signal %s' % signal.Signals(os.WTERMSIG(status)).name


def run_once(program, path):
    """The seconds and the most resident bytes of one run, and how it ended."""
    with tempfile.TemporaryFile() as err:
        begin = time.perf_counter()
        command = [program, 'lazy', os.path.basename(path), MAIN, STEPS]
        child = subprocess.Popen(
            command, cwd=os.path.dirname(path), stdin=subprocess.DEVNULL, stdout=subprocess.DEVNULL, stderr=err, preexec_fn=limit)
        stop = threading.Timer(GIVEN_SECONDS, os.kill, (child.pid, signal.SIGKILL))
        stop.start()
        _, status, usage = os.wait4(child.pid, 0)
        stop.cancel()
        seconds = time.perf_counter() - begin
        child.returncode = status  # it was waited for
        err.seek(0)
        return seconds, usage.ru_maxrss * 1024, end_of(status, err.read(1000), seconds)


def path_of(folder, shape, size):
    return os.path.join(folder, '%s%d.dex' % (shape, size))


def make_files(shape, sizes, folder):
    """Writes files of a shape."""
    for size in sizes:
        with open(path_of(folder, shape, size), 'wb') as file:
            file.write(file_of(shape, size * MIB))


def make_apart(shape, sizes, folder):
    """The same in a process of its own: the memory that a process has when it starts another counts as that one's."""
    command = [sys.executable, os.path.abspath(__file__), '--make', '--keep', folder, '--shape', shape, '--sizes']
    subprocess.run(command + [str(size) for size in sizes], check=True)


def measure(program, shape, sizes, folder, runs):
    """For each size the least seconds, the most resident bytes, and how its last run ended. The sizes take turns, so that a
    busy machine is as slow for each of them. One whose run ended as none may is not run again."""
    best = {size: (float('inf'), 0, 'not built') for size in sizes}
    for _ in range(runs):
        for size in sizes:
            least, most, end = best[size]
            if end in ENDS.values():
                seconds, resident, end = run_once(program, path_of(folder, shape, size))
                best[size] = min(least, seconds), max(most, resident), end
    return best


def broken_bounds(shape, best):
    """Prints what was measured of a shape, and says which bounds it breaks."""
    broken = []
    for size, (seconds, resident, end) in best.items():
        half = best.get(size / 2)
        ratio = seconds / half[0] if half and half[2] == end and end in ENDS.values() else None
        row = shape, size, seconds, resident / MIB, '%.2f' % ratio if ratio else '', end
        print('%-17s %4d %9.3f %9.0f %6s  %s' % row, flush=True)
        what = '%s: %d MiB ' % (shape, size)
        if end not in ENDS.values():
            broken.append(what + 'end with ' + end)
        if ratio and ratio > MOST_RATIO:
            broken.append(what + 'take %.2f times the time of %d MiB' % (ratio, size // 2))
        if seconds >= MOST_SECONDS:
            broken.append(what + 'take %.1f seconds' % seconds)
        if resident >= MOST_RESIDENT:
            broken.append(what + 'need %.0f MiB of memory' % (resident / MIB))
    return broken


def main():
    here = os.path.dirname(os.path.abspath(__file__))
    parser = argparse.ArgumentParser(description=__doc__.split('\n')[0])
    parser.add_argument('program', nargs='?', default=os.path.join(here, '..', 'crates', 'pi_tool', 'out', 'pi_tool'))
    parser.add_argument('--shape', default='mixed', choices=list(SHAPES) + ['hostile', 'all'])
    parser.add_argument('--sizes', nargs='+', type=int, default=[2, 4, 8, 16], choices=range(1, 17), metavar='MIB')
    parser.add_argument('--runs', type=int, default=5)
    parser.add_argument('--keep', metavar='FOLDER')
    parser.add_argument('--make', action='store_true')
    given = parser.parse_args()
    shapes = list({'all': SHAPES, 'hostile': HOSTILE}.get(given.shape, [given.shape]))
    program = os.path.abspath(given.program)
    sizes = sorted(set(given.sizes))
    broken = []
    with tempfile.TemporaryDirectory() as scratch:
        folder = os.path.abspath(given.keep) if given.keep else scratch
        os.makedirs(folder, exist_ok=True)
        if not given.make:
            print('%-17s %4s %9s %9s %6s  %s' % ('shape', 'MiB', 'seconds', 'resident', 'ratio', 'end'), flush=True)
        for shape in shapes:
            if given.make:
                make_files(shape, sizes, folder)
            else:
                make_apart(shape, sizes, folder)
                broken += broken_bounds(shape, measure(program, shape, sizes, folder, given.runs))
    for line in broken:
        print(line)
    return 1 if broken else 0


if __name__ == '__main__':
    sys.exit(main())
