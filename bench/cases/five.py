"""The worked file, and where its parts stand. It is the file of

    public class T {
        static int x = 5;
        public static void main(String[] words) { pi.Out.print(x); }
    }

where code sets the value of x. All that the format's published rules ask for is there: checksum, signature and map too.
"""

import hashlib
import struct

from dexfile import Class, Code, Field, File, Method

OBJECT, STRINGS = 'Ljava/lang/Object;', '[Ljava/lang/String;'
PUBLIC, STATIC, CONSTRUCTOR = 0x1, 0x8, 0x10000

# The tables.
STRING_IDS = 112
TYPE_IDS = STRING_IDS + 4 * 12
PROTO_IDS = TYPE_IDS + 4 * 6
FIELD_IDS = PROTO_IDS + 12 * 3
METHOD_IDS = FIELD_IDS + 8
CLASS_DEFS = METHOD_IDS + 8 * 3

# The data, which begins with the two codes.
DATA = CLASS_DEFS + 32
CLINIT_CODE = DATA
MAIN_CODE = CLINIT_CODE + 24

# The lists of parameters.
INT_LIST = MAIN_CODE + 28
STRINGS_LIST = INT_LIST + 8

# The texts of the strings: a byte that says how long it is, the characters, and a 0.
CLINIT_TEXT = STRINGS_LIST + 6
INT_TEXT = CLINIT_TEXT + 10
OWN_TEXT = INT_TEXT + 3
OBJECT_TEXT = OWN_TEXT + 5
OUT_TEXT = OBJECT_TEXT + 20
VOID_TEXT = OUT_TEXT + 10
VOID_INT_TEXT = VOID_TEXT + 3
VOID_REF_TEXT = VOID_INT_TEXT + 4
STRINGS_TEXT = VOID_REF_TEXT + 4
MAIN_TEXT = STRINGS_TEXT + 21
PRINT_TEXT = MAIN_TEXT + 6
FIELD_TEXT = PRINT_TEXT + 7

# The members of the class, and the map behind two bytes that nothing names.
CLASS_DATA = FIELD_TEXT + 3
MAP = CLASS_DATA + 18
END = MAP + 148

# The file is known by its digest.
DIGEST = '6af34ff215c4dcca872a8c866bc35f7a4028f108'


def five():
    """The bytes of the file."""
    x, put = ('field', 'LT;', 'x', 'I'), ('method', 'Lpi/Out;', 'print', ('I',), 'V')
    initialiser = Code(1, 0, 0, [0x5012, 0x0067, x, 0x000E])
    main = Code(2, 1, 1, [0x0060, x, 0x1071, put, 0, 0x000E])
    methods = [
        Method('<clinit>', (), 'V', STATIC | CONSTRUCTOR, initialiser),
        Method('main', (STRINGS,), 'V', PUBLIC | STATIC, main),
    ]
    file = File([Class('LT;', PUBLIC, OBJECT, statics=[Field('x', 'I', STATIC)], directs=methods)])
    content = file.write()
    assert hashlib.sha1(content).hexdigest() == DIGEST
    check_places(file, content)
    return content


def check_places(file, content):
    """Parts stand at the places that are named above: those that the writer noted, and those that the file says."""
    def words(at, count):
        return list(struct.unpack_from('<%dI' % count, content, at))

    assert len(content) == END
    assert words(60, 11)[::2] == [STRING_IDS, TYPE_IDS, PROTO_IDS, FIELD_IDS, METHOD_IDS, CLASS_DEFS]
    assert words(STRING_IDS, 12) == [
        CLINIT_TEXT, INT_TEXT, OWN_TEXT, OBJECT_TEXT, OUT_TEXT, VOID_TEXT, VOID_INT_TEXT, VOID_REF_TEXT, STRINGS_TEXT,
        MAIN_TEXT, PRINT_TEXT, FIELD_TEXT]
    assert [words(PROTO_IDS + 12 * p + 8, 1)[0] for p in range(3)] == [0, INT_LIST, STRINGS_LIST]
    assert words(52, 1) + words(108, 1) + words(CLASS_DEFS + 24, 1) == [MAP, DATA, CLASS_DATA]
    assert [file.places['LT;->' + m] for m in ('<clinit>', 'main')] == [CLINIT_CODE, MAIN_CODE]
