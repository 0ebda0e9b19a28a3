"""What a subject writes: rows for the program, and the lines that are wanted of it."""


# Rows up to the next line that is wanted share a line, a tab between them, unless it would be longer than this.
LONG = 200


class Rows:
    def __init__(self):
        self.lines, self.wanted, self.files = [], [], {}
        self.count, self.is_new = 0, True

    def note(self, text):
        """A heading among the rows, which the program passes over."""
        self.lines.append('# ' + text)
        self.is_new = True

    def row(self, verb, *words):
        row = ' '.join([verb] + [str(w) for w in words if str(w)])
        if self.is_new or len(self.lines[-1]) + len(row) >= LONG:
            self.lines.append(row)
        else:
            self.lines[-1] += '\t' + row
        self.count, self.is_new = self.count + 1, False

    def under(self, title, how=''):
        """The title of what the rows below tell, which is told by its digest or shortly where that is said."""
        self.row('under' + how, title)

    def want(self, line):
        self.wanted.append(line)
        self.is_new = True

    def data(self, name, content):
        """A file beside the rows."""
        self.files[name] = content


def spelled(content):
    """Bytes or text as rows have them."""
    named = {32: '\\s', 10: '\\n', 9: '\\t', 92: '\\\\'}
    content = content.encode() if isinstance(content, str) else content
    return ''.join(named.get(b) or (chr(b) if 32 < b < 127 else '\\x%02x' % b) for b in content) or '\\e'


def told(content):
    """Bytes or text as the program tells them."""
    content = content.encode() if isinstance(content, str) else content
    return ''.join('\\n' if b == 10 else chr(b) if 32 <= b < 127 and b != 92 else '\\x%02x' % b for b in content)
