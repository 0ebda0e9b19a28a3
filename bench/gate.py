"""Weighs the gate: processor time for each crate and kind of work, from nothing.

    python3 bench/gate.py run LOG [WORD..]    runs `rt ci WORD..`, and adds to LOG what its checkers took
    python3 bench/gate.py table LOG           prints the table of such a log, as docs/performance.md has it

With the word --anew a run proves all; without it what an earlier run passed is kept and takes nothing, so the table has for
each crate the last run of the log that proved it.

A checker is a process whose program is `rattle`. It is told apart by its words and its folder: one in a folder of its own
tries an edit, or proves the crate there before the first one; the others prove the crate, with its tests where told so. What
is taken is the processor time that the system counts for it, looked at each half second, so each process is short by a
quarter of a second on the average. The line `rest` is what the system counted for the run besides: compilers, the programs
themselves, and what the looks missed.
"""

import glob
import os
import resource
import subprocess
import sys
import time

TICKS = os.sysconf('SC_CLK_TCK')
TOP = os.path.join(os.path.dirname(os.path.abspath(__file__)), '..')
KINDS = ['proof', 'edits', 'tests']


def looked_at(folder):
    """The crate, the kind, the seconds and the start of a process; none where it is no checker."""
    words = open(folder + '/cmdline', 'rb').read().decode(errors='replace').split('\0')
    if not words[0].endswith('/rattle') or '--crate-name' not in words:
        return None
    crate = words[words.index('--crate-name') + 1]
    edit = '/rt-edit' in os.readlink(folder + '/cwd')
    kind = 'tests' if '--test' in words else 'edits' if edit else 'proof'
    fields = open(folder + '/stat').read().rsplit(')', 1)[1].split()
    return crate, kind, (int(fields[11]) + int(fields[12])) / TICKS, fields[19], int(fields[1])


def below(process, top):
    """Whether a process was started by another, or by one that it started."""
    while process > 1:
        if process == top:
            return True
        process = int(open('/proc/%d/stat' % process).read().rsplit(')', 1)[1].split()[1])
    return False


def sample(seen, gate):
    for folder in glob.glob('/proc/[0-9]*'):
        try:
            found = looked_at(folder)
            if found and below(found[4], gate):
                seen[folder, found[3]] = found[:3]
        except (OSError, IndexError):
            continue


def run(log, words):
    seen = {}
    with open(log + '.out', 'w') as out:
        gate = subprocess.Popen(['rt', 'ci'] + words, cwd=TOP, stdout=out, stderr=subprocess.STDOUT)
        begun = time.time()
        while gate.poll() is None:
            sample(seen, gate.pid)
            time.sleep(0.5)
    used = resource.getrusage(resource.RUSAGE_CHILDREN)
    checkers = sum(seconds for _, _, seconds in seen.values())
    with open(log, 'a') as out:
        out.write('run ci %d\n' % gate.returncode)
        for crate, kind, seconds in sorted(seen.values()):
            out.write('%s %s %.2f\n' % (crate, kind, seconds))
        out.write('rest all %.2f\n' % (used.ru_utime + used.ru_stime - checkers))
        out.write('wall all %.2f\n' % (time.time() - begun))
    print(open(log + '.out').read().rstrip().rsplit('\n', 1)[-1])
    return gate.returncode


def taken(log):
    """For each crate the seconds of each kind of work, in the last run that proved it."""
    last, runs = {}, []
    for line in open(log):
        name, kind, seconds = line.split()
        if name == 'run':
            runs.append({})
        else:
            kinds = runs[-1].setdefault(name, {})
            kinds[kind] = kinds.get(kind, 0) + float(seconds)
    for crates in runs:
        last.update((name, kinds) for name, kinds in crates.items() if 'proof' in kinds or name in ('rest', 'wall'))
    return last


def lines_of(crate):
    names = [n for end in ('rt', 'antt') for n in glob.glob(os.path.join(TOP, 'crates', crate, '**', '*.' + end), recursive=True)]
    return sum(len(open(n).readlines()) for n in names if os.sep + 'out' + os.sep not in n)


def row(name, lines, kinds):
    minutes = ['%.1f' % (kinds[k] / 60) if k in kinds else '' for k in KINDS]
    whole = sum(kinds.values()) / 60
    return '| %s | %d | %s | %.1f | %.1f |' % (name, lines, ' | '.join(minutes), whole, whole / lines * 1000)


def table(log):
    found = taken(log)
    rest, wall = found.pop('rest')['all'], found.pop('wall')['all']
    print('| Crate | Lines | Own proof | Edits | Tests | In all | For 1,000 lines |')
    print('|---|---|---|---|---|---|---|')
    lines = {crate: lines_of(crate) for crate in found}
    for crate, kinds in sorted(found.items()):
        print(row('`%s`' % crate, lines[crate], kinds))
    sums = {k: sum(kinds.get(k, 0) for kinds in found.values()) for k in KINDS}
    print(row('all', sum(lines.values()), {k: seconds for k, seconds in sums.items() if seconds}))
    print('\nBesides, %.1f minutes for all that is no checker; the last run took %.0f minutes by the clock.' % (rest / 60, wall / 60))


if __name__ == '__main__':
    words = sys.argv[1:]
    if len(words) < 2 or words[0] not in ('run', 'table'):
        sys.exit(__doc__)
    sys.exit(run(words[1], words[2:]) if words[0] == 'run' else table(words[1]))
