"""Assembler text, as docs/assembler.md states it."""

import hashlib
import re

from cases.rows import spelled, told
from cases.units import told_units

PROGRAM = """\
class public LT;
super Ljava/lang/Object;
field static x I
method static constructor <clinit> ()V regs 1
const/4 v0, 5
sput v0, LT;->x:I
return-void
end
method public static main ([Ljava/lang/String;)V regs 2
sget v0, LT;->x:I
invoke-static {v0}, Lpi/Out;->print(I)V
return-void
end
end
"""

# The first wrong place of each front of the program: of those from this length on up to that one, the line and the column;
# None where they are whole texts.
FRONTS = [
    (0, 1, None), (1, 5, (1, 1)), (5, 7, (1, 6)), (7, 12, (1, 7)), (12, 14, (1, 13)), (14, 16, (1, 14)),
    (16, 22, (2, 1)), (22, 24, (2, 6)), (24, 41, (2, 7)), (41, 47, (3, 1)), (47, 49, (3, 6)),
    (49, 50, (3, 8)), (50, 51, (3, 9)), (51, 52, (3, 10)), (52, 53, (3, 11)), (53, 54, (3, 12)),
    (54, 56, (3, 13)), (56, 58, (3, 15)), (58, 65, (4, 1)), (65, 67, (4, 7)), (67, 68, (4, 9)),
    (68, 69, (4, 10)), (69, 70, (4, 11)), (70, 71, (4, 12)), (71, 72, (4, 13)), (72, 74, (4, 14)),
    (74, 75, (4, 16)), (75, 76, (4, 17)), (76, 77, (4, 18)), (77, 78, (4, 19)), (78, 79, (4, 20)),
    (79, 80, (4, 21)), (80, 81, (4, 22)), (81, 82, (4, 23)), (82, 83, (4, 24)), (83, 84, (4, 25)),
    (84, 86, (4, 26)), (86, 87, (4, 28)), (87, 88, (4, 29)), (88, 89, (4, 30)), (89, 90, (4, 31)),
    (90, 91, (4, 32)), (91, 92, (4, 33)), (92, 93, (4, 34)), (93, 95, (4, 35)), (95, 97, (4, 36)),
    (97, 99, (4, 39)), (99, 102, (4, 40)), (102, 104, (4, 44)), (104, 110, (5, 1)), (110, 111, (5, 6)),
    (111, 112, (5, 1)), (112, 114, (5, 8)), (114, 115, (5, 9)), (115, 116, (5, 11)), (116, 118, (5, 12)),
    (118, 123, (6, 1)), (123, 125, (6, 5)), (125, 126, (6, 6)), (126, 127, (6, 8)), (127, 129, (6, 9)),
    (129, 136, (6, 10)), (136, 143, (7, 1)), (143, 144, (7, 7)), (144, 148, (7, 1)), (148, 152, (8, 1)),
    (152, 159, (9, 1)), (159, 161, (9, 7)), (161, 162, (9, 9)), (162, 163, (9, 10)), (163, 164, (9, 11)),
    (164, 165, (9, 12)), (165, 166, (9, 13)), (166, 168, (9, 14)), (168, 169, (9, 16)), (169, 170, (9, 17)),
    (170, 171, (9, 18)), (171, 172, (9, 19)), (172, 173, (9, 20)), (173, 175, (9, 21)), (175, 176, (9, 23)),
    (176, 177, (9, 24)), (177, 178, (9, 25)), (178, 180, (9, 26)), (180, 201, (9, 27)), (201, 203, (9, 49)),
    (203, 206, (9, 50)), (206, 208, (9, 54)), (208, 213, (10, 1)), (213, 215, (10, 5)), (215, 216, (10, 6)),
    (216, 217, (10, 8)), (217, 219, (10, 9)), (219, 226, (10, 10)), (226, 240, (11, 1)), (240, 242, (11, 14)),
    (242, 244, (11, 16)), (244, 245, (11, 18)), (245, 246, (11, 19)), (246, 248, (11, 20)),
    (248, 266, (11, 21)), (266, 273, (12, 1)), (273, 274, (12, 7)), (274, 278, (12, 1)), (278, 282, (13, 1)),
    (282, 286, (14, 1)), (286, 288, None),
]

# A text, and its first wrong place; None where it keeps the grammar.
TEXTS = [
    ('no text', '', None),
    ('a line without a token', '\n', None),
    ('only a comment', '# only a comment', None),
    ('blank lines and a comment', ' \n # x\n\n', None),
    ('a class line alone', 'class LA;', (2, 1)),
    ('supper in place of super', 'class LA;\nsupper LB;', (2, 1)),
    ('the shortest class', 'class LA;\nsuper LB;\nend', None),
    ('Object has no super', 'class Ljava/lang/Object;\nend\n', None),
    ('Object with a super', 'class Ljava/lang/Object;\nsuper LA;\nend', (2, 1)),
    ('a class without a super', 'class LA;\nend', (2, 1)),
    ('flags of a class, one of them twice', 'class public public final abstract interface LA;\nsuper LB;\nend', None),
    ('flags of members at a class, and descriptors of any kind',
     'class static native constructor private protected I\nsuper [J\nend', None),
    ('a flag that is none', 'class publi LA;', (1, 7)),
    ('a flag behind the descriptor', 'class LA; public', (1, 11)),
    ('class and no more', 'class', (1, 6)),
    ('no class line', 'klass LA;', (1, 1)),
    ('two descriptors behind super', 'class LA;\nsuper LB; LC;', (2, 11)),
    ('super and no more', 'class LA;\nsuper', (2, 6)),
    ('interfaces, fields and a second class',
     'class LA;\nsuper LB;\nimplements LC;\nimplements LD;\nfield x I\nfield static y I = 3\nend\nclass LB;\nsuper LA;\nend', None),
    ('an interface behind a field', 'class LA;\nsuper LB;\nfield x I\nimplements LC;', (4, 1)),
    ('a second super', 'class LA;\nsuper LB;\nsuper LC;', (3, 1)),
    ('a field behind a method', 'class LA;\nsuper LB;\nmethod native f ()V\nfield x I', (4, 1)),
    ('methods without bodies', 'class LA;\nsuper LB;\nmethod native f ()V\nmethod abstract public g (I)I\nend', None),
    ('end behind a method without a body', 'class LA;\nsuper LB;\nmethod native f ()V\nend\nend', (5, 1)),
    ('an empty body', 'class LA;\nsuper LB;\nmethod f ()V regs 1\nend\nend\n', None),
    ('an open class behind a body of -1 registers', 'class LA;\nsuper LB;\nmethod f ()V regs -1\nnop\nend\n', (6, 1)),
    ('an open body', 'class LA;\nsuper LB;\nmethod f ()V regs 1\nnop\n', (5, 1)),
    ('a body without regs', 'class LA;\nsuper LB;\nmethod f ()V\nend', (3, 13)),
    ('regs without a number', 'class LA;\nsuper LB;\nmethod f ()V regs\n\nend', (3, 18)),
    ('regs with a name', 'class LA;\nsuper LB;\nmethod f ()V regs x', (3, 19)),
    ('a prototype without parentheses', 'class LA;\nsuper LB;\nmethod f V regs 1', (3, 10)),
    ('a label behind a try line', 'class LA;\nsuper LB;\nmethod f ()V regs 1\ntry :a :b any :c\n:d\nend', (5, 1)),
    ('an instruction behind a try line', 'class LA;\nsuper LB;\nmethod f ()V regs 1\ntry :a :b any :c\nnop\nend', (5, 1)),
    ('labels, instructions and try lines',
     'class LA;\nsuper LB;\nmethod f ()V regs 1\n:a\nnop\n:b\ntry :a :b LA; :a\ntry :a :b any :a\nend\nend', None),
    ('end alone', 'end', (1, 1)),
    ('end behind a class', 'class LA;\nsuper LB;\nend\nend', (4, 1)),
    ('places count comments and empty lines', 'class LA;\n\n# c\nsuper LB;\nend # d\n\n  class LA;\nsuper x\n', (8, 7)),
    ('an open class and empty lines', 'class LA; # no super\n\n\n', (4, 1)),
    ('an open body and lines without a token', 'class LA;\nsuper LB;\nmethod f ()V regs 1 # body\n\n#\n', (6, 1)),
    ('columns count characters', 'class L\u00e9\u20ac\U0001f600/x; super', (1, 15)),
    ('a field of a name above 0x7f', 'class L\u00e9\u20ac\U0001f600/x;\nsuper LB;\nfield \U0001f600 I x', (3, 11)),
    ('a character above 0x7f behind a descriptor', 'class L\U0001f600; \u00e9', (1, 11)),
    ('a word above 0x7f', '\u00e9', (1, 1)),
    ('a string in place of a descriptor', 'class L\u00e9;\nsuper "\u00e9', (2, 7)),
    ('a carriage return is part of a word', 'class LA;\rsuper LB;', (1, 7)),
    ('a no-break space is part of a word', 'class\xa0LA;', (1, 1)),
]

# Lines of a method, each between the lines of a class, and the first wrong column.
CODE_LINES = [
    ('nop', None), ('nop v0', 5), ('nop,', 4), ('return v0', None), ('return', 7), ('return v', 8), ('return V0', 8),
    ('return v0x', 8), ('return v99999', None), ('return v007', None), ('move v0, v1', None), ('move v0 v1', 9),
    ('move v0,', 9), ('move v0, 1', 10), ('move , v0', 6), ('move v0, v1,', 12), ('move/from16 v0 ,v1', None),
    ('add-int v0, v1, v2', None), ('add-int v0, v1', 15), ('add-int/2addr v0, v1', None), ('const/4 v0, 5', None),
    ('const/4 v0, -5', None), ('const/4 v0, --5', 13), ('const/4 v0, 5-', 13), ('const/4 v0, -', 13),
    ('const/4 v0, 0x5', 13), ('const/4 v0, v1', 13), ('const-wide v0, 00000000000000000000009', None),
    ('add-int/lit8 v0, v1, 2', None), ('rsub-int v0, v1, -2', None), ('rsub-int/lit16 v0, v1, -2', 1),
    ('const-string v0, "a # \\" {},= \\\\ \\n \\u00Af b" # c "', None), ('const-string v0, "\\u12g4"', 18),
    ('const-string v0, "\\u123"', 18), ('const-string v0, "\\t"', 18), ('const-string v0, "open', 18),
    ('const-string v0, "open\\', 18), ('const-string v0, ""', None), ('const-string v0,"a""b"', 20),
    ('const-string v0, a', 18), ('const-class v0, [[LA/b-$_<>9;', None), ('const-class v0, L;', 17),
    ('const-class v0, LA', 17), ('const-class v0, A;', 17), ('const-class v0, [', 17), ('const-class v0, [V', None),
    ('const-class v0, II', 17), ('instance-of v0, v1, LA;', None), ('instance-of v0, LA;, v1', 17), ('goto :a', None),
    ('goto a', 6), ('goto :', 6), ('goto :a/b', 6), ('goto/32 :\u00e9-$_<>z', None), ('if-eq v0, v1, :a', None),
    ('if-eqz v0, :a', None), ('if-eqz v0, v1, :a', 12), ('sget v0, LT;->x:I', None), ('sget v0, [I->x:[LA;', None),
    ('sget v0, LT;->:I', 10), ('sget v0, LT;->x', 10), ('sget v0, LT;-x:I', 10), ('sget v0, LT;->x:', 10),
    ('sget v0, LT;->f()V', 10), ('sget v0, LT;->-> :I', 10), ('iget v0, v1, LT;->x>-:J', None),
    ('invoke-static {}, LT;->f()V', None), ('invoke-static {v0}, LT;->f(I[JLA;)V', None),
    ('invoke-static {v0, v1, v2, v3, v4, v5}, LT;-><init>()LA;', None), ('invoke-static {v0 v1}, LT;->f()V', 19),
    ('invoke-static {v0,}, LT;->f()V', 19), ('invoke-static {,}, LT;->f()V', 16), ('invoke-static {v0, LT;->f()V', 20),
    ('invoke-static v0}, LT;->f()V', 15), ('invoke-static {v0} LT;->f()V', 20), ('invoke-static {v0}, LT;->f:I', 21),
    ('invoke-static {v0}, LT;->f(V', 21), ('invoke-static {v0}, LT;->f()', 21), ('invoke-static {v0}, LT;->f)V', 21),
    ('invoke-static {v0 .. v5}, LT;->f()V', 19), ('invoke-static/range {v0 .. v5}, LT;->f()V', None),
    ('invoke-static/range {v0..v5}, LT;->f()V', 22), ('invoke-static/range {v0 . v5}, LT;->f()V', 25),
    ('invoke-static/range {v0, v5}, LT;->f()V', 24), ('invoke-static/range {}, LT;->f()V', 22),
    ('invoke-static/range {v0 .. }, LT;->f()V', 28), ('filled-new-array {v0, v1}, [I', None),
    ('filled-new-array {v0, v1}, LT;->x:I', 28), ('filled-new-array/range {v0 .. v1}, [I', None),
    ('fill-array-data v0, 4, {1, -2, 3}', None), ('fill-array-data v0, 4, {}', None), ('fill-array-data v0, 4, {v1}', 25),
    ('fill-array-data v0, {1}', 21), ('packed-switch v0, 0, {:a, :b}', None), ('packed-switch v0, 0, {}', None),
    ('packed-switch v0, 0, {1 :a}', 23), ('packed-switch v0, {:a}', 19), ('sparse-switch v0, {1 :a, 5 :b}', None),
    ('sparse-switch v0, {}', None), ('sparse-switch v0, {:a}', 20), ('sparse-switch v0, {1, :a}', 21),
    ('sparse-switch v0, {1}', 21), ('sparse-switch v0, 0, {1 :a}', 19), (':a', None), (':a :b', 4), (':a nop', 4),
    (': a', 1), (':', 1), ('try :a :b LA; :c', None), ('try :a :b any :c', None), ('try :a :b [I :c', None),
    ('try :a :b all :c', 11), ('try :a :b :c', 11), ('try :a, :b any :c', 7), ('try :a :b any', 14),
    ('try :a :b any :c :d', 18), ('implements LA;', 1), ('field x I', 1), ('regs', 1), ('Nop', 1), ('nop\tv0', 1),
    ('\tnop', 1), ('nop=', 4), ('end end', 5),
]

# What stands behind the word field, and the first wrong column of the line. A word of FLAGS may be the name.
FIELDS = [
    ('x I', None), ('static I', None), ('static static I', None), ('static I I', None), ('native I', None), ('I I', None),
    ('I', 8), ('static', 13), ('static x', 15), ('x', 8), ('public x I x', 18), ('static x I = 3', None), ('x I = 3', 11),
    ('static I = 3', 16), ('static static I = 3', None), ('static I I = 3', None), ('public static final x I = 3', None),
    ('static public x I = 3', None), ('static static I I = 3', None), ('static x = I', 16), ('static = 3', 14),
    ('static static = 3', 21), ('static static [I', None), ('static x I =', 19), ('static x I = 3 4', 22),
    ('static x I = true', None), ('static x I = false', None), ('static x I = null', None), ('static x I = "s"', None),
    ('static x I = LA;', None), ('static x I = [I', None), ('static x I = x', 20), ('static x I = "s', 20),
    ('static x I = -', 20), ('static x I 3', 18), ('x LA; = 3', 13), ('public', 13), ('public static I', None),
    ('static x II', 16), ('static x I = = 3', 20), ('x/y I', 7), ('$-_<>9 [[I', None), ('constructor constructor Z', None),
    ('static constructor I = 1', None), ('x: I', 7), ('(x I', 7),
]

# What stands behind the word method, what stands behind the line, and the first wrong column of the line.
METHODS = [
    ('f ()V regs 1', '\nend\nend', None), ('native f ()V', '\nend', None), ('abstract native f ()V', '\nend', None),
    ('native ()V regs 1', '\nend\nend', None), ('native native ()V', '\nend', None), ('native f ()V regs 1', '', 21),
    ('static f ()V', '', 20), ('public native ()V regs 0', '\nend\nend', None), ('native public ()V', '\nend', None),
    ('native public ()V regs 1', '', 26), ('native static native ()V', '\nend', None), ('f()V regs 1', '', 8),
    ('f ( )V regs 1', '', 10), ('f ()V regs 1 2', '', 21), ('f ()V regs', '', 18), ('f ()V regs v1', '', 19),
    ('f ()V reg 1', '', 14), ('f (I)', '', 10), ('f (LA;[[JV)[LA; regs 1', '\nend\nend', None), ('f (LA) V', '', 10),
    ('f (I)VV regs 1', '', 10), ('<init> ()V regs 1', '\nend\nend', None), ('f', '', 9), ('', '', 7), ('()V', '', 8),
    ('static ()V regs 1', '\nend\nend', None), ('constructor static <clinit> ()V regs 1', '\nend\nend', None),
    ('f f ()V regs 1', '', 10), ('native f f ()V', '', 17), ('native', '', 14),
]

# A text with its tokens written out.
TOKENS = ('# head\nclass  L\U0001f600\u00e9;\n \nsuper [I # x\nfield static y LA; = "#\\"{\u20ac\\n"\n\n'
          'field static z I=3\n  end', [
              (2, 1, 'class'), (2, 8, 'L\U0001f600\u00e9;'),
              (4, 1, 'super'), (4, 7, '[I'),
              (5, 1, 'field'), (5, 7, 'static'), (5, 14, 'y'), (5, 16, 'LA;'), (5, 20, '='), (5, 22, '"#\\"{\u20ac\\n"'),
              (7, 1, 'field'), (7, 7, 'static'), (7, 14, 'z'), (7, 16, 'I'), (7, 17, '='), (7, 18, '3'),
              (8, 3, 'end'),
          ])

# A token where a line begins or goes on, past spaces: a string, also an open one; one of four alone; or a run of others.
TOKEN = re.compile(r' *("(?:\\.|[^"\\])*(?:"|\\?$)|[{},=]|[^ "#{},=]+)')


def tokens_of(text):
    """The tokens of a text with their lines and columns."""
    found = []
    for number, line in enumerate(text.split('\n'), 1):
        token = TOKEN.match(line)
        while token:
            found.append((number, token.start(1) + 1, token.group(1)))
            token = TOKEN.match(line, token.end())
    return found


def told_tokens(tokens):
    return ''.join(' %d:%d %s' % (line, column, told_units(units)) for line, column, units in tokens)


def answer(text, place):
    """What is told of a text with this first wrong place."""
    return told_tokens(tokens_of(text)) if place is None else ' %d:%d: Syntax' % place


def case(out, title, text, place):
    out.row('text', spelled(text))
    out.under(title)
    out.row('parse')
    out.want(title + ':' + answer(text, place))


def fronts(out):
    out.row('text', spelled(PROGRAM))
    for first, behind, place in FRONTS:
        for length in range(first, behind):
            title = 'front of %d bytes' % length
            out.under(title)
            out.row('front', length)
            out.want(title + ':' + answer(PROGRAM[:length], place))


def lines(out):
    """Lines of each form, between others that are right."""
    begin = 'class LT;\nsuper LO;\n'
    for line, column in CODE_LINES:
        text = begin + 'method f ()V regs 1\n' + line + '\nend\nend\n'
        case(out, 'in a method [%s]' % told(line), text, column and (4, column))
    for line, column in FIELDS:
        case(out, 'field [%s]' % told(line), begin + 'field ' + line + '\nend\n', column and (3, column))
    for line, behind, column in METHODS:
        case(out, 'method [%s]' % told(line), begin + 'method ' + line + behind, column and (3, column))


def large(out):
    """Texts of some thousand lines, told by the digest of their tokens, and where they are wrong at the end."""
    for title, head, piece, count, tail, place in [
            ('5000 instructions', 'class LA;\nsuper LB;\nmethod f ()V regs 1\n',
             'const-string v0, "a \\" \\u00af" # \u20ac\n', 5000, 'end\nend\n', (5006, 1)),
            ('2000 classes', '', 'class LA;\nsuper LB;\nfield x I\n\nend\n', 2000, '', (10001, 1)),
            ('a list of 5000 registers', 'class LA;\nsuper LB;\nmethod f ()V regs 1\ninvoke-static {',
             'v0, ', 5000, 'v1}, LT;->f()V\nend\nend\n', (7, 1))]:
        text = head + piece * count + tail
        out.row('text', spelled(head))
        out.row('repeat', count, spelled(piece))
        out.row('repeat', 1, spelled(tail))
        out.under(title)
        out.row('count')
        tokens = tokens_of(text)
        digest = hashlib.sha1(told_tokens(tokens).encode()).hexdigest()
        out.want('%s: %d lines, %s' % (title, len({line for line, _, _ in tokens}), digest))
        out.row('repeat', 1, 'end')
        out.under(title + ' and a wrong end')
        out.row('parse')
        out.want('%s and a wrong end: %d:%d: Syntax' % (title, *place))


def rows(out):
    out.note('whole texts')
    out.row('case')
    for title, text, place in TEXTS:
        case(out, title, text, place)
    out.note('tokens stand as written')
    text, tokens = TOKENS
    out.row('text', spelled(text))
    out.under('tokens as written')
    out.row('parse')
    out.want('tokens as written:' + told_tokens(tokens))
    case(out, 'a fault with its place', 'class LA;\nsuper [I x', (2, 10))
    out.under('a text without memory')
    out.row('memory')
    out.want('a text without memory: out of memory')
    out.note('each front of a program')
    fronts(out)
    out.note('lines of methods, fields, and first lines of methods')
    lines(out)
    out.note('large texts')
    large(out)
