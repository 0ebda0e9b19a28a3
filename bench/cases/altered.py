"""Copies of the worked file that are altered, with their digests made anew, and what is answered over them: the rule that is
broken, that the program is not built, or its run. docs/dex-format.md states the rules, and which programs are small.

A row of a table is what is altered, where, the new bytes, and the answer. Bytes are digits, or b'..' where they are letters.
Some files break rules of higher numbers too. String 12, type 6, prototype 3, field 1 and method 3 are the first past their
tables. The code of the initialiser is at 284, and that of main at 308.
"""

import struct

from cases.calls import DONE, NOT_BUILT, limited, ran, rule
from cases.five import (
    CLASS_DATA, CLASS_DEFS, CLINIT_CODE, CLINIT_TEXT, END, FIELD_IDS, FIELD_TEXT, INT_LIST, MAIN_CODE, MAIN_TEXT, MAP, METHOD_IDS,
    OBJECT_TEXT, OUT_TEXT, OWN_TEXT, PRINT_TEXT, PROTO_IDS, STRING_IDS, STRINGS_LIST, STRINGS_TEXT, TYPE_IDS, VOID_INT_TEXT,
    VOID_TEXT, five)
from dexfile import uleb

# The end of the file, as an offset, and as a number of seven bits in a byte.
AT_END = '64 02 00 00'
ULEB_END = 'e4 04'

# The header.
HEADER = [
    ('first byte of the magic', 0, b'D', rule(2, 0)),
    ('version 039', 4, b'039', rule(2, 0)),
    ('end of the magic', 7, '01', rule(2, 0)),
    ('byte order', 40, '12 34 56 78', rule(3, 40)),
    ('one byte of the byte order', 43, '13', rule(3, 40)),
    ('header of 108 bytes', 36, '6c', rule(4, 36)),
    ('header of 113 bytes', 36, '71', rule(4, 36)),
    ('length of one less', 32, '63 02', rule(5, 32)),
    ('length of one more', 32, '65 02', rule(5, 32)),
    ('length past 16 bits', 34, '01', rule(5, 32)),
    ('strings past 32 bits', 56, '00 00 00 40', rule(8, 56)),
    ('classes past 32 bits', 96, '01 00 00 08', rule(8, 96)),
    ('data of one byte more', 104, '49', rule(9, 104)),
    ('data one byte behind', 108, '1d', rule(9, 104)),
    ('no data past all', 104, '00 00 00 00 65 02', rule(9, 104)),
    ('data past 32 bits', 104, 'ff ff ff ff ff ff ff ff', rule(9, 104)),
]

# The map, and sizes of tables that are not those of the map.
IN_MAP = [
    ('map off a multiple of four', 52, 'd2', rule(10, 52)),
    ('map at the end', 52, '64 02', rule(10, 52)),
    ('map of one item more', MAP, '0d', rule(10, 52)),
    ('map without its class', MAP, '06', rule(10, 52)),
    ('two headers in the map', MAP + 8, '02', rule(10, 52)),
    ('header at 4 in the map', MAP + 12, '04', rule(10, 52)),
    ('other strings in the map', MAP + 20, '0b', rule(10, 52)),
    ('kind twice in the map', MAP + 88, '01 10', rule(10, 52)),
    ('kind 7 in the map', MAP + 88, '07 00', rule(10, 52)),
    ('place twice in the map', MAP + 108, '1c', rule(10, 52)),
    ('item in the class', MAP + 96, '18', rule(10, 52)),
    ('no strings', 56, '00', rule(10, 52)),
    ('one string fewer', 56, '0b', rule(10, 52)),
    ('two classes', 96, '02', rule(10, 52)),
]

# The strings.
STRINGS = [
    ('byte 80 in V', VOID_INT_TEXT + 1, '80', rule(11, 136)),
    ('byte ff in I', VOID_INT_TEXT + 2, 'ff', rule(11, 136)),
    ('byte 0 in V', VOID_INT_TEXT + 1, '00', rule(11, 136)),
    ('no 0 behind it', VOID_INT_TEXT + 3, '01', rule(11, 136)),
    ('one character fewer', VOID_INT_TEXT, '01', rule(11, 136)),
    ('one character more', VOID_INT_TEXT, '03', rule(11, 136)),
    ('many characters', VOID_INT_TEXT, 'ff ff', rule(11, 136)),
    ('text at the end', STRING_IDS + 24, '64 02', rule(11, 136)),
    ('text far away', STRING_IDS + 24, 'ff ff ff ff', rule(11, 136)),
    ('V, then nothing', STRING_IDS + 24, '62 02', rule(12, 136)),
    ('string twice', STRING_IDS + 28, '91', rule(12, 140)),
    ('LJ.. behind LT;', OBJECT_TEXT + 2, b'J', rule(12, 124)),
    ('Main behind [L..', MAIN_TEXT + 1, b'M', rule(12, 148)),
]

# The tables of types, prototypes, fields and methods.
IDS = [
    ('string of a type', TYPE_IDS + 4, '0c', rule(13, 164)),
    ('string past 16 bits', TYPE_IDS + 6, '01', rule(13, 164)),
    ('type twice', TYPE_IDS + 4, '01', rule(13, 164)),
    ('type VI', TYPE_IDS + 16, '06', rule(13, 176)),
    ('type U', VOID_TEXT + 1, b'U', rule(13, 176)),
    ('type L/;', OWN_TEXT + 2, b'/', rule(13, 164)),
    ('type L.;', OWN_TEXT + 2, b'.', rule(13, 164)),
    ('short form past the table', PROTO_IDS, '0c', rule(14, 184)),
    ('short form I of result V', PROTO_IDS, '01', rule(14, 184)),
    ('short form VI of none', PROTO_IDS, '06', rule(14, 184)),
    ('result past the table', PROTO_IDS + 4, '06', rule(14, 184)),
    ('type of a parameter', INT_LIST + 4, '06', rule(14, 196)),
    ('parameter V', INT_LIST + 4, '04', rule(14, 196)),
    ('short form VI of one fewer', INT_LIST, '00', rule(14, 196)),
    ('short form VI of one more', INT_LIST, '02', rule(14, 196)),
    ('list past the end', INT_LIST, 'ff', rule(14, 196)),
    ('list past 32 bits', INT_LIST + 3, '80', rule(14, 196)),
    ('list at 338', PROTO_IDS + 20, '52', rule(14, 196)),
    ('list at the end', PROTO_IDS + 20, '64 02', rule(14, 196)),
    ('prototype twice', PROTO_IDS + 12, '05 00 00 00 04 00 00 00 00 00', rule(14, 196)),
    ('class of a field', FIELD_IDS, '06', rule(15, 220)),
    ('field of the class I', FIELD_IDS, '00', rule(15, 220)),
    ('field of an array', FIELD_IDS, '05', rule(15, 220)),
    ('field of type V', FIELD_IDS + 2, '04', rule(15, 220)),
    ('name of a field', FIELD_IDS + 4, '0c', rule(15, 220)),
    ('field named LT;', FIELD_IDS + 4, '02', rule(15, 220)),
    ('class of a method', METHOD_IDS + 16, '06', rule(16, 244)),
    ('method of the class I', METHOD_IDS, '00', rule(16, 228)),
    ('form of a method', METHOD_IDS + 18, '03', rule(16, 244)),
    ('name of a method', METHOD_IDS + 20, '0c', rule(16, 244)),
    ('name <Clinit>', CLINIT_TEXT + 2, b'C', rule(16, 228)),
    ('method twice', METHOD_IDS + 8, '01 00 00 00 00', rule(16, 236)),
    ('main behind print', METHOD_IDS + 4, '0a', rule(16, 236)),
]

# The definition of the class, and its members.
CLASS = [
    ('class of type 6', CLASS_DEFS, '06', rule(17, 252)),
    ('class I', CLASS_DEFS, '00', rule(17, 252)),
    ('class that is an array', CLASS_DEFS, '05', rule(17, 252)),
    ('superclass of type 6', CLASS_DEFS + 8, '06', rule(17, 252)),
    ('no superclass', CLASS_DEFS + 8, 'ff ff ff ff', rule(17, 252)),
    ('class below itself', CLASS_DEFS + 8, '01', rule(17, 252)),
    ('Object below Object', CLASS_DEFS, '02', rule(17, 252)),
    ('interface I', CLASS_DEFS + 12, '50 01', rule(17, 252)),
    ('list at 338', CLASS_DEFS + 12, '52 01', rule(17, 252)),
    ('list at the end', CLASS_DEFS + 12, '64 02', rule(17, 252)),
    ('members at 612', CLASS_DEFS + 24, '64 02', rule(18, 612)),
    ('far members', CLASS_DEFS + 24, 'ff ff ff ff', rule(18, 0xffffffff)),
    ('interface with code', CLASS_DEFS + 5, '02', rule(18, 446)),
    ('field twice', CLASS_DATA, '02', rule(18, 446)),
    ('field of both kinds', CLASS_DATA + 1, '01', rule(18, 446)),
    ('method twice', CLASS_DATA + 2, '03', rule(18, 446)),
    ('method of both kinds', CLASS_DATA + 3, '01', rule(18, 446)),
    ('field number 1', CLASS_DATA + 4, '01', rule(18, 446)),
    ('field, not static', CLASS_DATA + 5, '77', rule(18, 446)),
    ('<clinit>, not static', CLASS_DATA + 7, '80', rule(18, 446)),
    ('<clinit> twice', CLASS_DATA + 12, '00', rule(18, 446)),
    ('print as its own', CLASS_DATA + 12, '02', rule(18, 446)),
    ('method number 3', CLASS_DATA + 12, '03', rule(18, 446)),
    ('public main', CLASS_DATA + 13, '01', rule(18, 446)),
    ('main, no code', CLASS_DATA + 14, '80 00', rule(18, 446)),
    ('field of another class', FIELD_IDS, '02', rule(18, 446)),
    ('main of another class', METHOD_IDS + 8, '02', rule(18, 446)),
    ('<clinit> of a number', METHOD_IDS + 2, '01', rule(18, 446)),
    ('<clinit> of words', METHOD_IDS + 2, '02', rule(18, 446)),
    ('<clinit> with a result', PROTO_IDS, '01 00 00 00 00', rule(18, 446)),
    ('values at 612', CLASS_DEFS + 28, '64 02', rule(19, 612)),
    ('far values', CLASS_DEFS + 28, 'ff ff ff ff', rule(19, 0xffffffff)),
]

# The codes. That of the initialiser is at 284, and that of main at 308.
CODE = [
    ('code at 310', CLASS_DATA + 14, 'b6 02', rule(20, 310)),
    ('half a head', CLASS_DATA + 14, 'd8 04', rule(20, 600)),
    ('far code', CLASS_DATA + 14, 'fc 7f', rule(20, 16380)),
    ('code of <clinit>', CLASS_DATA + 14, '9c 02', rule(20, 284)),
    ('code of main', CLASS_DATA + 10, 'b4 02', rule(20, 308)),
    ('main, not static', CLASS_DATA + 13, '77', rule(20, 308)),
    ('main of nothing', METHOD_IDS + 10, '00', rule(20, 308)),
    ('main of no register', MAIN_CODE, '00', rule(20, 308)),
    ('main of no word', MAIN_CODE + 2, '00', rule(20, 308)),
    ('main of two words', MAIN_CODE, '03 00 02', rule(20, 308)),
    ('<clinit> of a word', CLINIT_CODE, '02 00 01', rule(20, 284)),
    ('range of no list', MAIN_CODE + 6, '01', rule(20, 308)),
    ('ranges past the end', CLINIT_CODE + 7, '01', rule(20, 284)),
    ('no unit', MAIN_CODE + 12, '00', rule(20, 308)),
    ('units past the end', MAIN_CODE + 12, 'ff', rule(20, 308)),
    ('units past 32 bits', MAIN_CODE + 15, '80', rule(20, 308)),
    ('half of an sget', MAIN_CODE + 12, '01', rule(21, 324)),
    ('part of a call', MAIN_CODE + 12, '04', rule(21, 328)),
    ('six registers', MAIN_CODE + 21, '60', rule(21, 328)),
    ('return-void, digit', MAIN_CODE + 27, '01', rule(21, 334)),
    ('nop, digit', CLINIT_CODE + 16, '00', rule(21, 300)),
    ('opcode 3e', CLINIT_CODE + 16, '3e', rule(21, 300)),
    ('opcode 73', MAIN_CODE + 20, '73', rule(21, 328)),
    ('field of an sget', MAIN_CODE + 18, '01', rule(22, 324)),
    ('field of an sput', CLINIT_CODE + 20, '01', rule(22, 302)),
    ('method of a call', MAIN_CODE + 22, '03', rule(22, 328)),
    ('method, range', MAIN_CODE + 20, '77 01 03', rule(22, 328)),
    ('no array data', CLINIT_CODE + 16, '26 00 03 00 00 00', rule(23, 300)),
]

# A class that is not small.
OTHER_CLASS = [
    ('class LU;', OWN_TEXT + 2, b'U', NOT_BUILT),
    ('below Ljava/lang/Objecu;', OBJECT_TEXT + 17, b'u', NOT_BUILT),
    ('below Lpi/Out;', CLASS_DEFS + 8, '03', NOT_BUILT),
    ('below an array', CLASS_DEFS + 8, '05', NOT_BUILT),
    ('no members', CLASS_DEFS + 24, '00 00', NOT_BUILT),
    ('no method', CLASS_DATA + 2, '00', NOT_BUILT),
    ('initialiser alone', CLASS_DATA + 2, '01', NOT_BUILT),
    ('field of type LT;', FIELD_IDS + 2, '01', NOT_BUILT),
    ('initialiser named V', METHOD_IDS + 4, '05', NOT_BUILT),
    ('initialiser named main', METHOD_IDS + 4, '09', NOT_BUILT),
    ('main named print', METHOD_IDS + 12, '0a', NOT_BUILT),
    ('main named maio', MAIN_TEXT + 4, b'o', NOT_BUILT),
    ('main of a number', METHOD_IDS + 10, '01', NOT_BUILT),
    ('main of an object', STRINGS_LIST + 4, '02', NOT_BUILT),
    ('main of [L..Strinh;', STRINGS_TEXT + 18, b'h', NOT_BUILT),
    ('print of this class', METHOD_IDS + 16, '01', NOT_BUILT),
    ('print of an array', METHOD_IDS + 16, '05', NOT_BUILT),
    ('print of Lpi/out;', OUT_TEXT + 5, b'o', NOT_BUILT),
    ('print named main', METHOD_IDS + 20, '09', NOT_BUILT),
    ('print named prinu', PRINT_TEXT + 5, b'u', NOT_BUILT),
    ('print of nothing', METHOD_IDS + 18, '00', NOT_BUILT),
    ('print of words', METHOD_IDS + 18, '02', NOT_BUILT),
]

# Code that is not small.
OTHER_CODE = [
    ('main with its argument alone', MAIN_CODE, '01', NOT_BUILT),
    ('<clinit> with no register', CLINIT_CODE, '00', NOT_BUILT),
    ('sput, register 1', CLINIT_CODE + 19, '01', NOT_BUILT),
    ('nop', MAIN_CODE + 16, '12 50 00 00', NOT_BUILT),
    ('const/16', MAIN_CODE + 16, '13 00 05 00', NOT_BUILT),
    ('const/high16', MAIN_CODE + 16, '15 00 05 00', NOT_BUILT),
    ('const-string', MAIN_CODE + 16, '1a', NOT_BUILT),
    ('move', CLINIT_CODE + 16, '01', NOT_BUILT),
    ('goto', CLINIT_CODE + 16, '28', NOT_BUILT),
    ('return', MAIN_CODE + 26, '0f', NOT_BUILT),
    ('const/4 last', CLINIT_CODE + 22, '12', NOT_BUILT),
    ('sget last', MAIN_CODE + 12, '02', NOT_BUILT),
    ('invoke-static last', MAIN_CODE + 12, '05', NOT_BUILT),
    ('move last', MAIN_CODE + 12, '07', NOT_BUILT),
    ('sget-wide', MAIN_CODE + 16, '61', NOT_BUILT),
    ('sget-object', MAIN_CODE + 16, '62', NOT_BUILT),
    ('sget-boolean', MAIN_CODE + 16, '63', NOT_BUILT),
    ('iget', MAIN_CODE + 16, '52', NOT_BUILT),
    ('sput-wide', CLINIT_CODE + 18, '68', NOT_BUILT),
    ('sput-boolean', CLINIT_CODE + 18, '6a', NOT_BUILT),
    ('invoke-virtual', MAIN_CODE + 20, '6e', NOT_BUILT),
    ('invoke-direct', MAIN_CODE + 20, '70', NOT_BUILT),
    ('call with no register', MAIN_CODE + 21, '00', NOT_BUILT),
    ('call with two registers', MAIN_CODE + 21, '20', NOT_BUILT),
    ('range of none', MAIN_CODE + 20, '77 00', NOT_BUILT),
    ('range of two', MAIN_CODE + 20, '77 02', NOT_BUILT),
    ('virtual range', MAIN_CODE + 20, '74 01', NOT_BUILT),
    ('call of main', MAIN_CODE + 22, '01', NOT_BUILT),
    ('call of the initialiser', MAIN_CODE + 22, '00', NOT_BUILT),
    ('const/4, register 1', CLINIT_CODE + 17, '51', NOT_BUILT),
    ('sget of the argument', MAIN_CODE + 17, '01', NOT_BUILT),
    ('sget of register 255', MAIN_CODE + 17, 'ff', NOT_BUILT),
    ('print of the argument', MAIN_CODE + 24, '01', NOT_BUILT),
    ('print of register 15', MAIN_CODE + 24, '0f', NOT_BUILT),
    ('range of the argument', MAIN_CODE + 20, '77 01 02 00 01', NOT_BUILT),
    ('range of register 65535', MAIN_CODE + 20, '77 01 02 00 ff ff', NOT_BUILT),
]

# The two forms of invoke-static with one register.
FORMS = [
    ('invoke-static', MAIN_CODE + 20, '71 10 02 00 00 00', DONE),
    ('invoke-static/range', MAIN_CODE + 20, '77 01 02 00 00 00', DONE),
]

# What is small all the same.
SMALL = [
    ('nothing altered', 0, b'dex', DONE),
    ('links', 44, 'ff ff ff ff ff ff ff ff', DONE),
    ('no data', 104, '00 00 00 00 00 00 00 00', DONE),
    ('empty list of parameters', PROTO_IDS + 8, '2c', DONE),
    ('field named y', FIELD_TEXT + 1, b'y', DONE),
    ('field named <clinit>', FIELD_IDS + 4, '00', DONE),
    ('class flags', CLASS_DEFS + 4, 'ff fd ff ff', DONE),
    ('empty list of interfaces', CLASS_DEFS + 12, '2c', DONE),
    ('source and annotations', CLASS_DEFS + 16, 'ff ff ff ff ff ff ff ff', DONE),
    ('no values', CLASS_DEFS + 28, '2c', DONE),
    ('field flags', CLASS_DATA + 5, '7f', DONE),
    ('main flags', CLASS_DATA + 13, '7f', DONE),
    ('many registers', MAIN_CODE, 'ff ff', DONE),
    ('words passed on', MAIN_CODE + 4, 'ff ff', DONE),
    ('debug information', MAIN_CODE + 8, 'ff ff ff ff', DONE),
    ('fifth register of one', MAIN_CODE + 21, '1f', DONE),
    ('others of one', MAIN_CODE + 24, 'f0 ff', DONE),
    ('constant of -8', CLINIT_CODE + 17, '80', ran('-8', 11)),
    ('two constants', MAIN_CODE + 16, '12 50 12 50', ran('5', 12)),
    ('bytes behind a list', INT_LIST + 6, 'ff ff', DONE),
    ('bytes behind class data', CLASS_DATA + 16, 'ff ff', DONE),
    ('map of the tables alone', MAP, '07', DONE),
    ('map without itself', MAP, '0b', DONE),
    ('half of an item', MAP + 6, 'ff ff', DONE),
    ('unknown kind', MAP + 88, 'ff ff', DONE),
    ('size of an item', MAP + 92, 'ff ff ff ff', DONE),
    ('last place of the map', MAP + 144, 'ff ff ff ff', DONE),
]

# Texts for the name of the field.
# Texts for the name of the field.
TEXTS = [
    ('character 1', b'\x02x\x01\x00', DONE),
    ('character 7f', b'\x02x\x7f\x00', DONE),
    ('character 80', b'\x02x\xc2\x80\x00', NOT_BUILT),
    ('character 0', b'\x02x\xc0\x80\x00', NOT_BUILT),
    ('character e9', '01 c3 a9 00', NOT_BUILT),
    ('character 20ac', '01 e2 82 ac 00', NOT_BUILT),
    ('length of two bytes', b'\x81\x00x\x00', DONE),
    ('long form of x', '01 c1 b8 00', rule(11, 156)),
]

# Lists of interfaces.
INTERFACES = [
    ('no interface', '00 00 00 00', DONE),
    ('Lpi/Out;', '01 00 00 00 03 00', NOT_BUILT),
    ('Object', '01 00 00 00 02 00', NOT_BUILT),
    ('Out and Object', '02 00 00 00 03 00 02 00', NOT_BUILT),
    ('twice Out', '02 00 00 00 03 00 03 00', rule(17, 252)),
    ('itself', '01 00 00 00 01 00', rule(17, 252)),
    ('an array', '01 00 00 00 05 00', rule(17, 252)),
    ('half a list', '02 00 00 00 03 00', rule(17, 252)),
]

# Static values.
# Static values.
VALUES = [
    ('no value', '00', DONE),
    ('0 in a byte', '01 04 00', DONE),
    ('0 in four bytes', '01 64 00 00 00 00', DONE),
    ('value 7', '01 04 07', NOT_BUILT),
    ('value -1', '01 04 ff', NOT_BUILT),
    ('a byte for an int', '01 00 07', rule(19, 612)),
    ('a value too many', '02 04 07 04 08', rule(19, 612)),
    ('half a value', '01 24 07', rule(19, 612)),
    ('no value where one is', '01', rule(19, 612)),
]

# The static fields, the instance fields, and the direct methods <clinit> and main.
# The static fields, the instance fields, and the direct methods <clinit> and main.
MEMBERS = [
    ('as before', '01 00 02 00 00 08 00 88 80 04 9c 02 01 09 b4 02', DONE),
    ('numbers of more bytes', '81 80 00 80 00 82 00 80 00 80 00 88 80 80 80 00 00 88 80 04 9c 02 01 09 b4 02', DONE),
    ('all flags of the field', '01 00 02 00 00 ff ff ff ff 0f 00 88 80 04 9c 02 01 09 b4 02', DONE),
    ('main alone', '01 00 01 00 00 08 01 09 b4 02', ran('0', 7)),
    ('<clinit> alone', '01 00 01 00 00 08 00 88 80 04 9c 02', NOT_BUILT),
    ('no field', '00 00 02 00 00 88 80 04 9c 02 01 09 b4 02', NOT_BUILT),
    ('instance field', '00 01 02 00 00 00 00 88 80 04 9c 02 01 09 b4 02', NOT_BUILT),
    ('native main', '01 00 01 00 00 08 01 89 02 00', NOT_BUILT),
    ('abstract main', '01 00 00 01 00 08 01 81 08 00', NOT_BUILT),
    ('direct abstract main', '01 00 01 00 00 08 01 89 08 00', rule(18, 612)),
    ('virtual static main', '01 00 00 01 00 08 01 09 b4 02', rule(18, 612)),
    ('native main with code', '01 00 01 00 00 08 01 89 02 b4 02', rule(18, 612)),
    ('static instance field', '00 01 01 00 00 08 01 09 b4 02', rule(18, 612)),
    ('number past 32 bits', '81 80 80 80 10 00 01 00 00 08 01 09 b4 02', rule(18, 612)),
    ('number of six bytes', '81 80 80 80 80 00 00 01 00 00 08 01 09 b4 02', rule(18, 612)),
    ('half a method', '01 00 01 00 00 08 01 09', rule(18, 612)),
]

# The units of main: sget, invoke-static and return-void.
MAIN_UNITS = [0x60, 0, 0x1071, 2, 0, 0x0E]

# Other units of main, which begin at 628.
UNITS = [
    ('two returns', '0060 0000 1071 0002 0000 000e 000e', DONE),
    ('data behind', '0060 0000 1071 0002 0000 000e 0300 0001 0000 0000', NOT_BUILT),
    ('data in front', '0300 0001 0000 0000 0060 0000 1071 0002 0000 000e', NOT_BUILT),
    ('half of data', '0060 0000 1071 0002 0000 000e 0300 0001 0000', rule(21, 640)),
    ('data that fills', '0026 0004 0000 000e 0300 0001 0000 0000', NOT_BUILT),
    ('data at an odd unit', '0026 0005 0000 000e 000e 0300 0001 0000 0000', rule(23, 628)),
    ('data for a switch', '002b 0004 0000 000e 0300 0001 0000 0000', rule(23, 628)),
    ('a key twice', '002c 0004 0000 000e 0200 0002 0001 0000 0001 0000 0003 0000 0003 0000', rule(23, 628)),
    ('a key twice in no switch', '000e 000e 0200 0002 0001 0000 0001 0000 0003 0000 0003 0000', NOT_BUILT),
]

# Ranges of main, which has six units: the first unit, how many they are and the place of the list of handlers; and the
# lists, which are how many they are and what is in each.
RANGES = [
    ('handler of all', (0, 5, 1), '01 00 05', NOT_BUILT),
    ('handler of Object', (0, 5, 1), '01 01 02 05', NOT_BUILT),
    ('handlers of both', (0, 5, 1), '01 7f 02 05 05', NOT_BUILT),
    ('range of no unit', (1, 0, 1), '01 00 05', NOT_BUILT),
    ('range past the code', (0, 7, 1), '01 00 05', rule(20, 612)),
    ('no list at 0', (0, 5, 0), '01 00 05', rule(20, 612)),
    ('handler past the code', (0, 5, 1), '01 00 06', rule(20, 612)),
    ('handler of type 6', (0, 5, 1), '01 01 06 05', rule(20, 612)),
    ('half a handler', (0, 5, 1), '01 01 02', rule(20, 612)),
]

# Changes at several places.
SEVERAL = [
    ('no class', [(96, '00'), (MAP + 76, '04 20')], NOT_BUILT),
    ('private main', [(CLASS_DATA + 13, '02'), (MAIN_CODE, '03 00 02')], NOT_BUILT),
    ('print of an object', [(PROTO_IDS + 12, '07'), (INT_LIST + 4, '02')], NOT_BUILT),
    ('third method', [
        (MAIN_CODE + 20, '60 00 00 00 0e 00'),
        (METHOD_IDS + 16, '01'),
        (CLASS_DEFS + 24, AT_END),
        (END, '01 00 03 00 00 08 00 88 80 04 9c 02 01 09 b4 02 01 89 02 00')], NOT_BUILT),
    ('bytes behind the end', [(END, 'ff ff ff ff ff')], DONE),
]

# A second class: its type, its words behind the flags, and the answer.
NONE = 0xFFFFFFFF
SECOND_CLASS = [
    (3, (2, 0, NONE, 0, 0, 0), NOT_BUILT),
    (2, (NONE, 0, NONE, 0, 0, 0), rule(17, END)),
    (3, (1, 0, NONE, 0, 0, 0), NOT_BUILT),
    (1, (2, 0, NONE, 0, 0, 0), rule(17, 644)),
    (3, (2, 0, NONE, 0, CLASS_DATA, 0), rule(18, CLASS_DATA)),
]

# Where the sizes of the tables stand, and where the tables begin.
TABLES = [(56, STRING_IDS), (64, TYPE_IDS), (72, PROTO_IDS), (80, FIELD_IDS), (88, METHOD_IDS), (96, CLASS_DEFS)]

# Main classes of the worked file that are not its own.
OTHER_MAINS = ['LU;', 'LT', 'LT;;', 'T', 'x', 'Ljava/lang/Object;', 'Lpi/Out;']

# Classes of the first file: the name, the type that the file defines in place of its own, and the superclass.
DEFINED_AGAIN = [('Ljava/lang/Object;', '02', 'ff ff ff ff'), ('Lpi/Out;', '03', '02 00 00 00')]

# Fronts that say their own length: those shorter than this end in a table, or in the data.
FRONTS = [
    (160, rule(8, 56)),
    (184, rule(8, 64)),
    (220, rule(8, 72)),
    (228, rule(8, 80)),
    (252, rule(8, 88)),
    (284, rule(8, 96)),
    (612, rule(9, 104)),
]

# The longest file that is read.
MOST_BYTES = 16777216


def content(digits):
    return bytes.fromhex(digits) if isinstance(digits, str) else digits


def code_head(count, ranges=0):
    """The head of a code item as main has it: two registers, one argument, one word passed on."""
    return struct.pack('<4H2I', 2, 1, 1, ranges, 0, count)


def code_item(units, ranges=0):
    return code_head(len(units), ranges) + struct.pack('<%dH' % len(units), *units)


def begin(calls, source='five.dex', main='LT;', steps=99):
    calls.case()
    calls.words('lazy', 'a.dex', main, str(steps))
    calls.file('a.dex', source)


def seal(calls, grown=False):
    for verb in ['length'] * grown + ['sign', 'sum']:
        calls.out.row(verb)


def changed(calls, title, changes, answer, main='LT;'):
    """The worked file with some changes. Its digests are made anew, and its length where it grew."""
    begin(calls, main=main)
    for place, digits in changes:
        calls.put(place, content(digits))
    seal(calls, any(place + len(content(digits)) > END for place, digits in changes))
    calls.run(title, answer)


def each_change(calls):
    tables = [
        ('header', HEADER), ('map', IN_MAP), ('strings', STRINGS), ('ids', IDS), ('class', CLASS), ('code', CODE),
        ('other class', OTHER_CLASS), ('other code', OTHER_CODE), ('form', FORMS), ('small', SMALL)]
    for what, table in tables:
        calls.out.note(what)
        for title, place, digits, answer in table:
            changed(calls, '%s: %s' % (what, title), [(place, digits)], answer)


def longer(calls):
    """A part of the class is written behind the end of the file, and is said to stand there."""
    parts = [
        ('text', STRING_IDS + 44, TEXTS), ('interfaces', CLASS_DEFS + 12, INTERFACES), ('values', CLASS_DEFS + 28, VALUES),
        ('members', CLASS_DEFS + 24, MEMBERS)]
    for what, place, table in parts:
        calls.out.note(what)
        for title, digits, answer in table:
            changed(calls, '%s: %s' % (what, title), [(place, AT_END), (END, digits)], answer)
    calls.out.note('names have fewer than 128 characters')
    for count, answer in [(127, DONE), (128, NOT_BUILT), (16384, NOT_BUILT)]:
        begin(calls)
        calls.put(STRING_IDS + 44, content(AT_END))
        calls.put(END, uleb(count))
        calls.out.row('fill', count, b'x'.hex())
        calls.out.row('zeros', 1)
        seal(calls, grown=True)
        calls.run('text: %d characters' % count, answer)


def other_main(calls, title, item, answer):
    """The worked file whose main has another code."""
    changed(calls, title, [(CLASS_DATA + 14, ULEB_END), (END, item)], answer)


def codes(calls):
    calls.out.note('payloads')
    for title, units, answer in UNITS:
        other_main(calls, 'units: ' + title, code_item([int(unit, 16) for unit in units.split()]), answer)
    calls.out.note('handlers; where the code says no range, what stands behind it is not read')
    for title, (first, count, place), lists, answer in RANGES:
        handlers = struct.pack('<I2H', first, count, place) + content(lists)
        for ranges, wanted in [(0, DONE), (1, answer)]:
            item = code_item(MAIN_UNITS, ranges) + handlers
            other_main(calls, 'handlers, %d range: %s' % (ranges, title), item, wanted)


def several(calls):
    calls.out.note('changes at several places')
    for title, changes, answer in SEVERAL:
        changed(calls, 'several: ' + title, changes, answer)
    calls.out.note('two classes')
    first = struct.pack('<8I', 1, 1, 2, 0, NONE, 0, CLASS_DATA, 0)
    for number, (ty, words, answer) in enumerate(SECOND_CLASS):
        second = struct.pack('<8I', ty, 1, *words)
        changed(calls, 'second class %d, of type %d' % (number, ty), [
            (96, '02 00 00 00 64 02'),
            (MAP + 76, '03 20'),
            (MAP + 136, '06 00 00 00 02 00 00 00 64 02'),
            (END, first + second)], answer)


def tables(calls):
    calls.out.note('tables at wrong places')
    for size, start in TABLES:
        wrong = [start + 1, start + 2, 0, 108, 110, END - 2, END, END + 4, 0xFFFFFFFC]
        # a table may stand behind its place, but the map says another
        for place, answer in [(w, rule(8, size)) for w in wrong] + [(start + 4, rule(10, 52))]:
            changed(calls, 'table of %d at %d' % (size, place), [(size + 4, struct.pack('<I', place))], answer)
        changed(calls, 'table of %d has 255 entries' % size, [(size, 'ff')], rule(8, size))
    calls.out.note('types are at most 65535')
    for count, answer in [(65535, rule(10, 52)), (65536, rule(8, 64))]:
        begin(calls)
        calls.put(64, struct.pack('<I', count))
        calls.out.row('zeros', 262144)
        seal(calls, grown=True)
        calls.run('%d types' % count, answer)


def main_classes(calls):
    calls.out.note('the class is found by its text')
    changed(calls, 'main LU; of that class', [(OWN_TEXT + 2, b'U')], DONE, main='LU;')
    for main in OTHER_MAINS:
        begin(calls, main=main)
        calls.run('main ' + main, NOT_BUILT)
    calls.out.note('classes of the first file are not defined again')
    for main, ty, parent in DEFINED_AGAIN:
        places = [FIELD_IDS, METHOD_IDS, METHOD_IDS + 8, CLASS_DEFS]
        changed(calls, main + ' defined again', [(place, ty) for place in places] + [(CLASS_DEFS + 8, parent)], NOT_BUILT, main=main)


def digests(calls):
    """Each byte is in both digests, but for those of which rules of lower numbers speak, from 32 to 44."""
    calls.out.note('digests')
    good = five()
    for place in [*range(8, 32), *range(44, END)]:
        begin(calls)
        calls.put(place, bytes([good[place] ^ 255]))
        calls.run('byte %d in the checksum' % place, rule(6, 8))
        if place >= 12:
            calls.out.row('sum')
            calls.run('byte %d in the signature' % place, rule(7, 12))


def first_look(calls):
    """The rules that a first look at a file tells, with their places."""
    calls.out.note('a first look')
    begin(calls)
    calls.run('first look: whole', DONE)
    begin(calls, source='-')
    calls.run('first look: empty', rule(1, 0))
    for title, place, digits, summed, answer in [
            ('version 036', 4, b'036', False, rule(2, 0)),
            ('another checksum', 8, '00', False, rule(6, 8)),
            ('another signature', 31, '00', True, rule(7, 12))]:
        begin(calls)
        calls.put(place, content(digits))
        if summed:
            calls.out.row('sum')
        calls.run('first look: ' + title, answer)
    # the places of I and of <clinit>
    changed(calls, 'first look: strings exchanged', [(STRING_IDS, '68 01 00 00 5e 01 00 00')], rule(12, 116))


def fronts(calls):
    calls.out.note('fronts')
    for length in range(END):
        begin(calls)
        calls.out.row('cut', length)
        calls.run('front of %d' % length, rule(1, length) if length < 112 else rule(5, 32))
    calls.out.note('fronts that say their length')
    start = 112
    for end, answer in FRONTS:
        for length in range(start, end):
            begin(calls)
            calls.out.row('cut', length)
            seal(calls, grown=True)
            calls.run('front of %d that says it' % length, answer)
        start = end


def large(calls):
    calls.out.note('the longest files')
    begin(calls, source='-')
    calls.out.row('zeros', MOST_BYTES)
    calls.run('%d zeros' % MOST_BYTES, rule(2, 0))
    calls.out.row('zeros', 1)
    calls.run('%d zeros' % (MOST_BYTES + 1), (17, '', 'too large a.dex\n'))
    begin(calls)
    calls.out.row('zeros', MOST_BYTES - END)
    seal(calls, grown=True)
    calls.run('filled up to %d bytes' % MOST_BYTES, DONE)
    # each of the constants in front of main is a step
    constants = 30000
    for steps, answer in [(99999, ran('5', constants + 11)), (constants, limited('', constants))]:
        begin(calls, steps=steps)
        calls.put(CLASS_DATA + 14, content(ULEB_END))
        calls.put(END, code_head(constants + len(MAIN_UNITS)))
        calls.out.row('fill', constants, '1200')
        calls.put(END + 16 + 2 * constants, struct.pack('<6H', *MAIN_UNITS))
        seal(calls, grown=True)
        calls.run('%d constants, %d steps' % (constants, steps), answer)


def rows(calls):
    first_look(calls)
    fronts(calls)
    each_change(calls)
    longer(calls)
    codes(calls)
    several(calls)
    tables(calls)
    main_classes(calls)
    digests(calls)
    large(calls)
