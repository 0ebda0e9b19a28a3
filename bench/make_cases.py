"""Writes data/ and stdout of crates/pi_cases: rows that the program follows, and the lines that are wanted.

Run it from the top of the repository: python3 bench/make_cases.py. With --check it writes nothing, and says which files
differ from what it would write. The tables stand in bench/cases/, a module for each subject; each answer in them is worked
out from docs/ by hand, or by a reader of the script's own. None comes from the program.
"""

import os
import sys

from cases import (
    arith, asmtext, builds, code, frames, insns, jobs, layouts, lists, literals, lookups, members, memory, numbers, outside, patch, raw, reader, top)
from cases.five import five
from cases.rows import Rows

# In the order in which the program runs them.
SUBJECTS = [
    outside, top, raw, members, code, reader, layouts, builds, jobs, asmtext, arith, insns, numbers, lists, lookups, memory, frames, literals, patch]
CRATES = os.path.join(os.path.dirname(os.path.abspath(__file__)), '..', 'crates')


def written():
    """What every file has, by its name below crates/."""
    files, wanted = {'pi_tool/data/five.dex': five()}, []
    for subject in SUBJECTS:
        name = subject.__name__.split('.')[-1]
        out = Rows()
        subject.rows(out)
        wanted += out.wanted
        out.data(name, '\n'.join(out.lines) + '\n')
        for data, content in out.files.items():
            content = content.encode() if isinstance(content, str) else content
            path = 'pi_cases/data/' + data
            assert files.get(path, content) == content, 'two subjects have another ' + data
            files[path] = content
        print('%-12s %6d rows %6d lines' % (name, out.count, len(out.wanted)))
    files['pi_cases/stdout'] = ('\n'.join(wanted) + '\n').encode()
    print('%-12s %6s      %6d lines' % ('all', '', len(wanted)))
    return files


def differs(path, content):
    return not os.path.exists(path) or open(path, 'rb').read() != content


def main(check):
    differing = []
    for name, content in written().items():
        path = os.path.join(CRATES, name)
        if differs(path, content):
            differing.append(name)
            if not check:
                os.makedirs(os.path.dirname(path), exist_ok=True)
                open(path, 'wb').write(content)
    print('differ:' if check else 'written:', ', '.join(differing) or 'none')
    return 1 if check and differing else 0


if __name__ == '__main__':
    sys.exit(main('--check' in sys.argv[1:]))
