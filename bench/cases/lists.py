"""Lists of numbers of 16 bits: what each call of a list answers and leaves, worked out from what it says of itself."""

import hashlib


def listed(numbers):
    text = '%d numbers%s: [%s]' % (len(numbers), '' if numbers else ', empty', ', '.join(str(n) for n in numbers))
    return text if len(text) <= 600 else '%d bytes %s' % (len(text), hashlib.sha1(text.encode()).hexdigest())


# what the case shows, and its rows, each with its answer where it is one that tells
CASES = [
    ('a list that grows and is cut', [
        ('list 1 2', None),
        ('tell', [1, 2]),
        ('push 3', None),
        ('tell', [1, 2, 3]),
        ('extend 4 5', None),
        ('tell', [1, 2, 3, 4, 5]),
        ('copied', 'true'),
        ('double', None),
        ('tell', [1, 2, 3, 4, 5, 1, 2, 3, 4, 5]),
        ('truncate 4', None),
        ('tell', [1, 2, 3, 4]),
        ('at 3', '4'),
        ('get 3', 'Some(4)'),
        ('get 4', 'None'),
        ('vector', None),
        ('tell', [1, 2, 3, 4]),
        ('same 1 2 3 4', 'true'),
    ]),
    ('the empty list', [
        ('tell', []),
        ('get 0', 'None'),
        ('at 0', 'none'),
        ('same', 'true'),
        ('same 0', 'false'),
        ('copied', 'true'),
        ('double', None),
        ('truncate 3', None),
        ('vector', None),
        ('extend', None),
        ('append', None),
        ('tell', []),
    ]),
    ('lists that differ', [
        ('list 1 2 3', None),
        ('same 1 2', 'false'),
        ('same 1 2 3 4', 'false'),
        ('same 1 2 4', 'false'),
        ('same 3 2 1', 'false'),
        ('same', 'false'),
        ('same 1 2 3', 'true'),
    ]),
    ('another list is moved behind', [
        ('list 65535', None),
        ('append 0 7', None),
        ('tell', [65535, 0, 7]),
        ('append', None),
        ('tell', [65535, 0, 7]),
        ('at 0', '65535'),
        ('at 2', '7'),
        ('at 3', 'none'),
    ]),
    ('no number is left', [
        ('list 5 6', None),
        ('truncate 2', None),
        ('tell', [5, 6]),
        ('truncate 0', None),
        ('tell', []),
        ('push 8', None),
        ('tell', [8]),
    ]),
    ('the same numbers again', [
        ('list 1 2 3', None),
        ('repeat', None),
        ('tell', [1, 2, 3, 1, 2, 3]),
        ('truncate 0', None),
        ('repeat', None),
        ('tell', []),
    ]),
    ('many numbers again', [
        ('count 65535', None),
        ('repeat', None),
        ('tell', 2 * list(range(65535))),
    ]),
    ('many numbers', [
        ('count 50000', None),
        ('copied', 'true'),
        ('double', None),
        ('tell', 2 * list(range(50000))),
        ('vector', None),
        ('at 49999', '49999'),
        ('at 50000', '0'),
        ('get 65535', 'Some(15535)'),
        ('extend 1 2 3', None),
        ('append 4 5', None),
        ('tell', 2 * list(range(50000)) + [1, 2, 3, 4, 5]),
        ('same 0 1 2', 'false'),
        ('truncate 60000', None),
        ('tell', list(range(50000)) + list(range(10000))),
    ]),
]


def rows(out):
    for title, steps in CASES:
        out.row('case')
        out.under(title, '-short')
        for row, answer in steps:
            out.row(row)
            if answer is not None:
                out.want('%s: %s' % (title, listed(answer) if isinstance(answer, list) else answer))
