"""Times the writer of files against the reader, on tables whose file has nearly 16 MiB.

    (cd crates/pi_cases && rt run)
    python3 bench/writing.py [RUNS]

The program of the cases follows rows that make the tables; rows that make and write them; and rows that also read the file
again. Each is run RUNS times, five if not said, and the least time counts. What writing takes is the difference of the first
two, and what reading takes that of the others. Ends with status 1 where writing takes longer than reading.
"""

import os
import subprocess
import sys
import tempfile
import time

from cases.layouts import NOP, spelled, wide

TOP = os.path.join(os.path.dirname(os.path.abspath(__file__)), '..')
PROGRAM = os.path.join(TOP, 'crates', 'pi_cases', 'out', 'pi_cases')
DATA = os.path.join(TOP, 'crates', 'pi_cases', 'data')
# So many of each thing, and so many units more in each code, give a file of nearly 16 MiB.
COUNT, MORE = 32000, 166


def lines(rows):
    for verb, *words in rows:
        if verb == 'times':
            for row in words[1]:
                yield ' '.join(['*', row[0], *map(spelled, row[1:])])
            words = words[:1]
        yield ' '.join([verb, *map(spelled, words)])


def seconds(rows, runs):
    """The least time of the program that follows those rows alone, and what it prints."""
    with tempfile.TemporaryDirectory() as folder:
        for name in os.listdir(DATA):
            open(os.path.join(folder, name), 'w').close()
        with open(os.path.join(folder, 'layouts'), 'w') as out:
            out.write('\n'.join(rows) + '\n')
        least, told = None, ''
        for _ in range(runs):
            begun = time.time()
            told = subprocess.run([PROGRAM], cwd=folder, stdout=subprocess.PIPE, check=True).stdout.decode()
            taken = time.time() - begun
            least = taken if least is None else min(least, taken)
    return least, told.strip()


def main(runs):
    tables = wide(COUNT)
    verb, count, classes = tables[-1]
    at = next(k for k, row in enumerate(classes) if row[0] == 'range')
    tables[-1] = verb, count, classes[:at] + [('fill', MORE, NOP)] + classes[at:]
    made = ['case', *lines(tables)]
    first, _ = seconds(made, runs)
    second, told = seconds(made + ['length'], runs)
    third, read = seconds(made + ['length', 'read'], runs)
    print(told)
    print(read.splitlines()[-1])
    print('made %.2f s, written %.2f s, read %.2f s' % (first, second - first, third - second))
    return 0 if second - first <= third - second else 1


if __name__ == '__main__':
    sys.exit(main(int(sys.argv[1]) if len(sys.argv) > 1 else 5))
