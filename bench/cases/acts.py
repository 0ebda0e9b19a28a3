"""Lists of acts: rows that a program makes on a store, and the words that it answers.

Each subject has a model of its store, whose method of an act's name gives the answer. Where a table says an answer too, the
model has to agree with it.
"""

import hashlib


class Acts:
    """Writes acts as rows. `model` makes the store of a case from its words."""

    def __init__(self, out, subject, model):
        self.out, self.subject, self.model = out, subject, model
        self.store, self.said = None, []

    def case(self, *words):
        self.out.row('case', *words)
        self.store = self.model(*words)

    def act(self, verb, *words, want=None):
        """One act. What a table wants is a word as the program tells it, or a number, a truth value, or None for none."""
        answer = word(getattr(self.store, verb)(*words))
        if want is not None and answer != word(want):
            raise ValueError('%s: %s %r: the model says %s and the table %s' % (self.subject, verb, words, answer, word(want)))
        self.out.row(verb, *(w.hex() if isinstance(w, bytes) else w for w in words))
        self.said.append(answer)

    def acts(self, *acts):
        """Acts of which each is its words alone."""
        for act in acts:
            self.act(*act)

    def tell(self, title):
        """Tells the answers since the last call."""
        self.out.under(self.subject + ': ' + title)
        self.out.row('tell')
        self.out.want(': '.join([self.subject, title]) + ':' + ''.join(' ' + a for a in self.said))
        self.said = []

    def no_row(self, *words):
        """A row that is told to be none."""
        self.out.row(*words)
        self.out.want('%s: no row: %s' % (self.subject, ' '.join(map(str, words))))


# answers that are neither numbers nor bytes
DONE, UNMET, FULL, NO = 'done', 'none', 'full', 'no'


def made(is_made):
    return DONE if is_made else UNMET


def word(answer):
    """An answer as the program tells it."""
    if isinstance(answer, bool):
        return 'yes' if answer else 'no'
    if isinstance(answer, (bytes, bytearray)):
        return answer.hex() or '-'
    return str(answer)


def digest(content):
    return hashlib.sha1(content).hexdigest()
