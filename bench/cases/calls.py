"""Calls of the top call, as rows, and what is wanted of them: a status, the output, and the lines on the error stream."""

import hashlib

from cases.rows import spelled, told


def ran(output, steps):
    """Main returns after so many steps, and printed this."""
    return 0, output + '\n', 'made %d steps\n' % steps


def limited(output, steps):
    """The limit on steps is met."""
    return 13, output, 'limit steps\nmade %d steps\n' % steps


def rule(number, place, name='a.dex'):
    """The file breaks a rule of this number, at this place."""
    return 6, '', 'dex %s: rule %d at %d\n' % (name, number, place)


USAGE = (2, '', 'usage\n')
NOT_BUILT = (19, '', 'not built\n')
NO_MEMORY = (18, '', 'out of memory\n')
# The worked file prints 5.
DONE = ran('5', 11)


def digest(content):
    return hashlib.sha1(content).hexdigest()


class Calls:
    """Writes rows of calls, each under a title of its own."""

    def __init__(self, out):
        self.out, self.titles = out, set()

    def case(self, heading=''):
        if heading:
            self.out.note(heading)
        self.out.row('case')

    def file(self, name, source='five.dex'):
        self.out.row('file', name, source)

    def put(self, place, content):
        self.out.row('put', place, content.hex())

    def words(self, *texts):
        self.out.row('words', *map(spelled, texts))

    def run(self, title, answer, *contents):
        """A call, with the contents that the store has behind it, each by its name."""
        assert title not in self.titles, title
        self.titles.add(title)
        self.out.under(title)
        self.out.row('run')
        self.want(title, answer, *contents)

    def want(self, title, answer, *contents):
        status, output, lines = answer
        line = '%s: %d [%s] [%s]' % (title, status, told(output), told(lines))
        for name, content in contents:
            line += ' %s %d %s' % (name, len(content), digest(content))
        self.out.want(line)
