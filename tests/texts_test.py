#!/usr/bin/env python3
"""Compares the readers of readers.py with the program and with its C library, on the same texts.

Usage: texts_test.py [--program PROGRAM] [--library FOLDER], at least one of both

The texts are: variants of five short texts, each byte of them replaced by each byte among these; random texts; made
puzzles, and these with a few changes; and tables of texts whose meaning was worked out by hand from docs/formats.md. Each
is read in the three formats, but made puzzles in their own.
The last line printed is `N passed, M failed`; a line `FAILED ...` stands above it for each comparison that failed, and the
test stops after 20 of them.
"""

import random
import sys
from collections import Counter

import readers
from comparing import FORMATS, run_test
from readers import MAX_COLLECTION, MAX_ENTRIES, MAX_TEXT, Fault, Puzzle

RANDOM_TEXTS = 10_000
MADE_PUZZLES = 2_000
CHANGED_TEXTS = 2_000  # in each format

VERDICTS = (b"none", b"one", b"several", b"unsettled")
GRADES = (b"line", b"trials", b"search")

DEMO = (
    b'title "Demo"\nwidth 5\nheight 10\n\nrows\n2\n2,1\n1,1\n3\n1,1\n1,1\n2\n1,1\n1,2\n2\n\n'
    b'columns\n2,1\n2,1,3\n7\n1,3\n2,1\n\ngoal "01100011010010101110101001010000110010100101111000"\n'
)
BASE_TEXTS = (
    DEMO,
    b"2 4\n2\n1 1\n#\n1\n1\n1\n1\n",
    b"2 4\n2\n1 1\n1\n1\n1\n1\n",
    b"1 2\n1\n#\n1\n2\n",
    b"2 1\n1\n1\n2\n",
)
INSERTED = b'-+0x#" ,\t\n\r\xff'
RANDOM_BYTES = b'012359 \t,\r\n\n#"@-wrcgRx\0\xff'


# Tables of texts that were worked out by hand


def non(width, height, rows, columns, head=b"", goal=None):
    """Returns the text in `.non` of a puzzle whose clues are given with a slash between each two. The lines of its texts
    are `head`."""
    lines = [b"width %d" % width, b"height %d" % height, b"", b"rows", *rows.split(b"/"), b"", b"columns"]
    lines += columns.split(b"/")
    if goal is not None:
        lines += [b"", b'goal "' + goal + b'"']
    return head + b"\n".join(lines) + b"\n"


def mk_row(line):
    """Returns a text in `.mk` of a puzzle with one cell, in which this line, its second, is the row's clue line."""
    return b"1 1\n" + line + b"\n#\n1\n"


def non_rows(*section):
    """Returns a text in `.non` of a puzzle 1 wide and 3 high whose rows section has these lines."""
    return b"width 1\nheight 3\ncolumns\n1\nrows\n" + b"".join(line + b"\n" for line in section)


def headed(*head):
    """Returns a text in `.non` with these lines in front of those of a filled puzzle with one cell."""
    return b"".join(line + b"\n" for line in head) + ONE_CELL


ONE_CELL = non(1, 1, b"1", b"1")
EMPTY_ROW = non(1, 1, b"0", b"1")
ONE_CELL_SIDES = b"width 1\nheight 1\n"
SECTIONS = b"rows\n1\ncolumns\n1\n"
BYTE_ORDER_MARK = b"\xef\xbb\xbf"
LONGEST_TEXT = b"t" * 65_536
FULL_GOAL = b"1" * 65_536
FULL_CLUES = b"/".join([b"256"] * 256)
FULL = non(256, 256, FULL_CLUES, FULL_CLUES)
ONES = non(256, 256, b"/".join([b"1"] * 256), b"/".join([b"1"] * 256))
USUAL_NON = non(2, 2, b"1/1,1,1,1,1,1,1,1,1,1", b"2/1", b'title "a"\nby "b"\n', b"1010")

# Each row has a name, a text, and what `convert --to non` prints: the text in `.non`, or as a str the fault.
HAND_MADE = [
    # Lines
    (b"a.non", b"", "NoSize"),
    (b"a.mk", b"", "NoSize"),
    (b"a.nin", b"", "NoSize"),
    (b"a.mk", b"\n \t\r\n\n", "NoSize"),
    (b"a.mk", b"1 1\n1\n#\n1\n", ONE_CELL),
    (b"a.mk", b"1 1\n1\n#\n1", ONE_CELL),
    (b"a.mk", b"1 1\r\n1\r\n#\r\n1\r\n", ONE_CELL),
    (b"a.mk", b"1 1\r\n1\r\n#\r\n1\r", ONE_CELL),
    (b"a.mk", b"1 1\r1\r#\r1\r", "BadSize"),
    (b"a.mk", b"\r\n \t\r\n\n 1 1\n1\n#\n1\n\n \t\r\n", ONE_CELL),
    (b"a.mk", mk_row(b"1\r\r"), "BadNumber:2"),
    (b"a.mk", mk_row(b" \t1 \t\r"), ONE_CELL),
    (b"a.mk", mk_row(b"1\r "), "BadNumber:2"),
    (b"a.mk", mk_row(b"\r1"), "BadNumber:2"),
    (b"a.mk", mk_row(b"\r"), EMPTY_ROW),
    (b"a.mk", mk_row(b"\r\r"), "BadNumber:2"),
    (b"a.mk", b"\r \n1 1\n1\n#\n1\n", "NoSize"),
    (b"a.non", b"\r\n" + ONE_CELL, ONE_CELL),
    (b"a.non", b"\r\r\n" + ONE_CELL, "BadLine:1"),
    (b"a.non", b"\r \n" + ONE_CELL, "BadLine:1"),
    (b"a.non", ONE_CELL.replace(b"\n", b"\r\n"), ONE_CELL),
    (b"a.non", ONE_CELL.replace(b"\n", b" \t\r\n\t "), ONE_CELL),
    (b"a.mk", BYTE_ORDER_MARK + b"1 1\n1\n#\n1\n", "BadSize"),
    (b"a.non", BYTE_ORDER_MARK + ONE_CELL, "NoSize"),
    (b"a.non", BYTE_ORDER_MARK + b"title x\n" + ONE_CELL, "BadLine:1"),
    (b"a.mk", b"1\x0b1\n1\n#\n1\n", "NoSize"),
    (b"a.mk", b"1\xc2\xa01\n1\n#\n1\n", "NoSize"),
    (b"a.mk", mk_row(b"\x0c1"), "BadNumber:2"),
    (b"a.mk", mk_row(b"1\x0b"), "BadNumber:2"),
    (b"a.mk", mk_row(b"\x0c"), "BadNumber:2"),
    (b"a.mk", mk_row(b"1\x1c1"), "BadNumber:2"),
    (b"a.mk", mk_row(b"1\x00"), "BadNumber:2"),
    (b"a.mk", mk_row(b"\x85"), "BadNumber:2"),
    (b"a.non", b"\x0b\n" + ONE_CELL, "BadLine:1"),
    # Pieces and numbers
    (b"a.mk", mk_row(b"2,, 1"), non(1, 1, b"2,1", b"1")),
    (b"a.mk", mk_row(b",\t2\t,1,"), non(1, 1, b"2,1", b"1")),
    (b"a.mk", mk_row(b"1;1"), "BadNumber:2"),
    (b"a.mk", mk_row(b"001"), ONE_CELL),
    (b"a.mk", mk_row(b"0" * 5_000 + b"1"), ONE_CELL),
    (b"a.mk", mk_row(b"0" * 5_000), EMPTY_ROW),
    (b"a.mk", mk_row(b"0" * 5_000 + b"256"), non(1, 1, b"256", b"1")),
    (b"a.mk", mk_row(b"0" * 5_000 + b"257"), "BadNumber:2"),
    (b"a.mk", mk_row(b"1" * 5_000), "BadNumber:2"),
    (b"a.mk", mk_row(b"1" + b"0" * 5_000), "BadNumber:2"),
    (b"a.mk", mk_row(b"4294967297"), "BadNumber:2"),
    (b"a.mk", mk_row(b"4294967296"), "BadNumber:2"),
    (b"a.mk", mk_row(b"18446744073709551617"), "BadNumber:2"),
    (b"a.mk", mk_row(b"18446744073709551616"), "BadNumber:2"),
    (b"a.mk", mk_row(b"+1"), "BadNumber:2"),
    (b"a.mk", mk_row(b"1_1"), "BadNumber:2"),
    (b"a.mk", mk_row(b"0x1"), "BadNumber:2"),
    (b"a.mk", mk_row(b"1.0"), "BadNumber:2"),
    (b"a.mk", mk_row(b"\xef\xbc\x91"), "BadNumber:2"),
    (b"a.mk", mk_row(b"\xb9"), "BadNumber:2"),
    (b"a.mk", mk_row(b'"1"'), "BadNumber:2"),
    # Sizes
    (b"a.mk", b"2 4\n2\n1 1\n#\n1\n1\n1\n1\n", non(4, 2, b"2/1,1", b"1/1/1/1")),
    (b"a.mk", b"02,4\n2\n1 1\n#\n1\n1\n1\n1\n", non(4, 2, b"2/1,1", b"1/1/1/1")),
    (b"a.mk", b"  2 , 256  \n0\n0\n#\n" + b"0\n" * 256, non(256, 2, b"0/0", b"/".join([b"0"] * 256))),
    (b"a.nin", b"  2 , 256  \n" + b"0\n" * 258, non(2, 256, b"/".join([b"0"] * 256), b"0/0")),
    (b"a.mk", b"0" * 5_000 + b"1 1\n1\n#\n1\n", ONE_CELL),
    (b"a.mk", b"2\n2\n#\n1\n", "NoSize"),
    (b"a.mk", b"2 4 1\n2\n#\n1\n", "NoSize"),
    (b"a.mk", b"2x4\n2\n#\n1\n", "NoSize"),
    (b"a.mk", b",\n1 1\n1\n#\n1\n", "NoSize"),
    (b"a.mk", b"#\n1 1\n1\n#\n1\n", "NoSize"),
    (b"a.mk", b"0 4\n2\n#\n1\n", "BadSize"),
    (b"a.mk", b"2 257\n2\n#\n1\n", "BadSize"),
    (b"a.mk", b"257 2\n2\n#\n1\n", "BadSize"),
    (b"a.mk", b"2 -4\n2\n#\n1\n", "BadSize"),
    (b"a.mk", b"# 4\n2\n#\n1\n", "BadSize"),
    (b"a.mk", b"2 x\n2\n#\n1\n", "BadSize"),
    (b"a.mk", b"1 4294967297\n2\n#\n1\n", "BadSize"),
    (b"a.mk", b"1 " + b"1" * 5_000 + b"\n2\n#\n1\n", "BadSize"),
    (b"a.nin", b"2\n2\n1\n", "NoSize"),
    (b"a.nin", b"2 4 1\n2\n1\n", "NoSize"),
    (b"a.nin", b"2x4\n2\n1\n", "NoSize"),
    (b"a.nin", b",\n1 1\n1\n1\n", "NoSize"),
    (b"a.nin", b"0 4\n2\n1\n", "BadSize"),
    (b"a.nin", b"2 257\n2\n1\n", "BadSize"),
    (b"a.nin", b"2 -4\n2\n1\n", "BadSize"),
    (b"a.nin", b"# 4\n2\n1\n", "BadSize"),
    # Clue lines
    (b"a.mk", mk_row(b"2,1"), non(1, 1, b"2,1", b"1")),
    (b"a.mk", mk_row(b"2 1"), non(1, 1, b"2,1", b"1")),
    (b"a.mk", mk_row(b"  02 ,1  "), non(1, 1, b"2,1", b"1")),
    (b"a.mk", mk_row(b"0"), EMPTY_ROW),
    (b"a.mk", mk_row(b"00"), EMPTY_ROW),
    (b"a.mk", mk_row(b""), EMPTY_ROW),
    (b"a.mk", mk_row(b","), EMPTY_ROW),
    (b"a.mk", mk_row(b", ,\t"), EMPTY_ROW),
    (b"a.mk", mk_row(b",0,"), EMPTY_ROW),
    (b"a.mk", mk_row(b"0 1"), "BadNumber:2"),
    (b"a.mk", mk_row(b"1 0"), "BadNumber:2"),
    (b"a.mk", mk_row(b"0 0"), "BadNumber:2"),
    (b"a.mk", mk_row(b"1 x"), "BadNumber:2"),
    (b"a.mk", mk_row(b"256"), non(1, 1, b"256", b"1")),
    (b"a.mk", mk_row(b"257"), "BadNumber:2"),
    (b"a.mk", mk_row(b"-1"), "BadNumber:2"),
    (b"a.mk", mk_row(b"1 " * 128), non(1, 1, b",".join([b"1"] * 128), b"1")),
    (b"a.mk", mk_row(b"256,," * 128), non(1, 1, b",".join([b"256"] * 128), b"1")),
    (b"a.mk", mk_row(b"1 " * 129), "BadNumber:2"),
    (b"a.mk", mk_row(b"0 " * 129), "BadNumber:2"),
    (b"a.nin", b"1 1\n1\n" + b"1 " * 128 + b"\n", non(1, 1, b"1", b",".join([b"1"] * 128))),
    (b"a.nin", b"1 1\n1\n" + b"1 " * 129 + b"\n", "BadNumber:3"),
    # Sections
    (b"a.non", non_rows(b"1", b"0", b"2"), non(1, 3, b"1/0/2", b"1")),
    (b"a.non", non_rows(b"1", b"", b"0", b"", b"2"), non(1, 3, b"1/0/2", b"1")),
    (b"a.non", non_rows(b"", b"", b"1", b"", b"0", b"2", b""), non(1, 3, b"1/0/2", b"1")),
    (b"a.non", non_rows(b"1", b"", b"2", b""), non(1, 3, b"1/0/2", b"1")),
    (b"a.non", non_rows(b"1", b"", b"2"), non(1, 3, b"1/0/2", b"1")),
    (b"a.non", non_rows(b"1", b"", b" \t", b"", b"\r"), non(1, 3, b"1/0/0", b"1")),
    (b"a.non", non_rows(b"", b"", b""), non(1, 3, b"0/0/0", b"1")),
    (b"a.non", non_rows(b"1", b"", b"", b"2"), "BadCount"),
    (b"a.non", non_rows(b"", b"1", b"", b"2"), "BadCount"),
    (b"a.non", non_rows(b"1", b"2"), "BadCount"),
    (b"a.non", non_rows(b"", b""), "BadCount"),
    (b"a.non", non_rows(), "BadCount"),
    (b"a.non", non_rows(b"1", b"2", b"3", b"4"), "BadCount"),
    (b"a.non", non_rows(b"1", b",", b"2", b""), non(1, 3, b"1/0/2", b"1")),
    (b"a.non", non_rows(b"1", b"", b"2", b","), non(1, 3, b"1/2/0", b"1")),
    (b"a.non", non_rows(b"1", b"# 9", b"", b" #", b"2"), non(1, 3, b"1/0/2", b"1")),
    (b"a.nin", b"1 2\n1\n\n2\n\n", non(1, 2, b"1/0", b"2")),
    (b"a.nin", b"1 2\n1\n\n\n2\n", "BadCount"),
    (b"a.nin", b"1 2\n\n1\n\n1\n\n2\n", non(1, 2, b"1/1", b"2")),
    (b"a.nin", b"1 2\n\n\n\n", non(1, 2, b"0/0", b"0")),
    (b"a.nin", b"1 2\n\n\n", "BadCount"),
    (b"a.mk", b"1 2\n1\n\n#\n1\n\n", non(2, 1, b"1", b"1/0")),
    # `.non`: comments and keywords
    (b"a.non", DEMO, DEMO),
    (b"demo.NON", b"# a comment\n" + DEMO, DEMO),
    (b"a.non", b"#\n \t# width 2\n" + ONE_CELL + b"#", ONE_CELL),
    (b"a.non", b"#width 1\n#height 1\n" + SECTIONS, "NoSize"),
    (b"a.non", b"WIDTH 1\nHeight 1\nROWS\n1\nCoLuMnS\n1\nGOAL 1\nTiTlE x\n", non(1, 1, b"1", b"1", b'title "x"\n', b"1")),
    (b"a.non", b"columns\n1\n2\nrows\n3\nheight 1\nwidth 2\n", non(2, 1, b"3", b"1/2")),
    (b"a.non", b"width1\nheight0001\nrows5\n1\ncolumns 1 1\n1\n", ONE_CELL),
    (b"a.non", b"\t width\t 1 \t\nheight     1\r\nrows # 7\n1\ncolumns,\n1\n", ONE_CELL),
    (b"a.non", b"widths 7\nheigh 2\nw\nx,y\n" + ONE_CELL, ONE_CELL),
    (b"a.non", b"\xffwidth 1\nheight 1\n" + SECTIONS, "NoSize"),
    (b"a.non", b"wid\xffth 1\nheight 1\n" + SECTIONS, "NoSize"),
    (b"a.non", b"width 1\nheight 1\nrows\n1\nnote\n\ncolumns\n1\n", ONE_CELL),
    (b"a.non", b"width 1\nheight 1\nrows\nnote\n1\ncolumns\n1\n", "BadLine:5"),
    (b"a.non", b"width 1\nheight 1\ncolumns\n1\nrows\n# 2\n#\n1\n# 3", ONE_CELL),
    (b"a.non", b"height 1\nrows\n1\nwidth 1\n\ncolumns\n1\ntitle\n", non(1, 1, b"1", b"1", b'title ""\n')),
    # `.non`: texts
    (b"a.non", headed(b'by "a"b"'), b'by "a"b"\n' + ONE_CELL),
    (b"a.non", headed(b"by a b"), b'by "a b"\n' + ONE_CELL),
    (b"a.non", headed(b'by "a'), b'by ""a"\n' + ONE_CELL),
    (b"a.non", headed(b'by a"'), b'by "a""\n' + ONE_CELL),
    (b"a.non", headed(b'by a"b c'), b'by "a"b c"\n' + ONE_CELL),
    (b"a.non", headed(b"by"), b'by ""\n' + ONE_CELL),
    (b"a.non", headed(b"by \t"), b'by ""\n' + ONE_CELL),
    (b"a.non", headed(b'by ""'), b'by ""\n' + ONE_CELL),
    (b"a.non", headed(b'by "'), b'by """\n' + ONE_CELL),
    (b"a.non", headed(b'by """'), b'by """\n' + ONE_CELL),
    (b"a.non", headed(b'by"a"'), b'by "a"\n' + ONE_CELL),
    (b"a.non", headed(b'by x " a " y'), b'by " a "\n' + ONE_CELL),
    (b"a.non", headed(b"by  \t a \t"), b'by "a"\n' + ONE_CELL),
    (b"a.non", headed(b"by a\r"), b'by "a"\n' + ONE_CELL),
    (b"a.non", headed(b'by "a\r'), b'by ""a"\n' + ONE_CELL),
    (b"a.non", headed(b"by a\r\r"), b'by "a\r"\n' + ONE_CELL),
    (b"a.non", headed(b'by "a\r"'), b'by "a\r"\n' + ONE_CELL),
    (b"a.non", headed(b'by "\\"\\n"'), b'by "\\"\\n"\n' + ONE_CELL),
    (b"a.non", headed(b'by "\0\xff\t\x0b"'), b'by "\0\xff\t\x0b"\n' + ONE_CELL),
    (b"a.non", headed(b"by \x0b\0"), b'by "\x0b\0"\n' + ONE_CELL),
    (b"a.non", headed(b"by # a"), b'by "# a"\n' + ONE_CELL),
    (b"a.non", headed(b"by-line"), b'by "-line"\n' + ONE_CELL),
    (b"a.non", headed(b"bye x"), ONE_CELL),
    (b"a.non", headed(b"by a", b"BY b", b"by"), b'by "a"\n' + ONE_CELL),
    (
        b"a.non",
        headed(b"license l", b"copyright c", b"by b", b"title t", b"catalogue n"),
        b'catalogue "n"\ntitle "t"\nby "b"\ncopyright "c"\nlicense "l"\n' + ONE_CELL,
    ),
    (b"a.non", headed(b"license " + LONGEST_TEXT), b'license "' + LONGEST_TEXT + b'"\n' + ONE_CELL),
    (b"a.non", headed(b'license "' + LONGEST_TEXT + b'"'), b'license "' + LONGEST_TEXT + b'"\n' + ONE_CELL),
    (b"a.non", headed(b"x", b"license " + LONGEST_TEXT + b"t"), "BadLine:2"),
    (b"a.non", headed(b'catalogue "' + LONGEST_TEXT + b't"'), "BadLine:1"),
    (b"a.non", headed(b"title " + LONGEST_TEXT + b'"a"'), b'title "a"\n' + ONE_CELL),
    (b"a.non", headed(b"title " + LONGEST_TEXT + b" \t \r"), b'title "' + LONGEST_TEXT + b'"\n' + ONE_CELL),
    (b"a.non", headed(b"title a", b"title " + LONGEST_TEXT + b"t"), b'title "a"\n' + ONE_CELL),
    (b"a.non", headed(b"titles " + LONGEST_TEXT + b"t"), ONE_CELL),
    (b"a.non", headed(b"#" + LONGEST_TEXT + b"t"), ONE_CELL),
    (b"a.non", headed(b"by " + LONGEST_TEXT + b"t", b"title " + LONGEST_TEXT + b"t"), "BadLine:1"),
    (b"a.non", headed(b"title " + LONGEST_TEXT + b"t", b"by " + LONGEST_TEXT + b"t"), "BadLine:1"),
    (b"a.non", headed(b"5", b"title " + LONGEST_TEXT + b"t"), "BadLine:1"),
    (b"a.non", headed(b"title " + LONGEST_TEXT + b"t", b"5"), "BadLine:1"),
    (b"a.non", ONE_CELL + b"title " + LONGEST_TEXT + b"t", "BadLine:9"),
    # `.non`: goals
    (b"a.non", ONE_CELL + b'goal "1"', non(1, 1, b"1", b"1", b"", b"1")),
    (b"a.non", ONE_CELL + b"goal 0", non(1, 1, b"1", b"1", b"", b"0")),
    (b"a.non", ONE_CELL + b"goal0", non(1, 1, b"1", b"1", b"", b"0")),
    (b"a.non", ONE_CELL + b'goal x"1"1', non(1, 1, b"1", b"1", b"", b"1")),
    (b"a.non", headed(b"goal 1", b"goal 0", b"goal 7"), non(1, 1, b"1", b"1", b"", b"1")),
    (b"a.non", headed(b"Goal 7", b"goal 1"), "BadGoal:1"),
    (b"a.non", ONE_CELL + b"goal", "BadGoal:9"),
    (b"a.non", ONE_CELL + b'goal ""', "BadGoal:9"),
    (b"a.non", ONE_CELL + b'goal "', "BadGoal:9"),
    (b"a.non", ONE_CELL + b'goal "1', "BadGoal:9"),
    (b"a.non", ONE_CELL + b"goal 11", "BadGoal:9"),
    (b"a.non", ONE_CELL + b"goal x", "BadGoal:9"),
    (b"a.non", ONE_CELL + b'goal " 1"', "BadGoal:9"),
    (b"a.non", b"width 2\nheight 2\nrows\n1\n1\ncolumns\n1\n1\ngoal 1001", non(2, 2, b"1/1", b"1/1", b"", b"1001")),
    (b"a.non", b"width 2\nheight 2\nrows\n1\n1\ncolumns\n1\n1\ngoal 10 01", "BadGoal:9"),
    (b"a.non", b"width 2\nheight 2\nrows\n1\n1\ncolumns\n1\n1\ngoal 10,1", "BadGoal:9"),
    (b"a.non", b"width 2\nheight 2\nrows\n1\n1\ncolumns\n1\n1\ngoal 100", "BadGoal:9"),
    (b"a.non", b"goal 2\nwidth 1\nheight 1\nrows\n-\ncolumns\n1\n", "BadNumber:5"),
    (b"a.non", FULL, FULL),
    (b"a.non", FULL + b"goal " + FULL_GOAL, FULL + b'\ngoal "' + FULL_GOAL + b'"\n'),
    (b"a.non", FULL + b"goal " + FULL_GOAL + b"1", "BadGoal:519"),
    (b"a.non", FULL + b"goal " + FULL_GOAL[1:], "BadGoal:519"),
    (b"a.non", FULL + b"goal " + FULL_GOAL[1:] + b"2", "BadGoal:519"),
    # `.non`: faults, in order
    (b"a.non", b"#" * (MAX_TEXT - 1 - len(ONE_CELL)) + b"\n" + ONE_CELL, ONE_CELL),
    (b"a.non", b"#" * (MAX_TEXT - len(ONE_CELL)) + b"\n" + ONE_CELL, "TooLong"),
    (b"a.non", b"\xff" * (MAX_TEXT + 1), "TooLong"),
    (b"a.non", b"\xff" * MAX_TEXT, "NoSize"),
    (b"a.non", b"x" + b"\n" * 70_000 + b"7\n" + ONE_CELL, "BadLine:70001"),
    (b"a.non", b"7\nheight 0\n", "NoSize"),
    (b"a.non", b"7\nwidth 0\nwidth 0\nrows\n", "NoSize"),
    (b"a.non", b"7\nwidth 0\nheight 1\n", "BadSize"),
    (b"a.non", b"7\nwidth 1\nheight 0\n", "BadSize"),
    (b"a.non", b"7\nwidth 1\nheight 1\nwidth 1\nrows\n", "NoSection"),
    (b"a.non", b"7\nwidth 1\nheight 1\nwidth 1\ncolumns\n", "NoSection"),
    (b"a.non", b"\nwidth 1\nheight 1\nwidth 1\n8\ncolumns\nrows\n", "BadLine:5"),
    (b"a.non", b"\nwidth 1\nheight 1\nwidth 1\n\ncolumns\nrows\n", "Twice:4"),
    (b"a.non", b"\nwidth 1\nheight 1\ncolumns\nx\nrows\nx\n", "BadCount"),
    (b"a.non", b"\nwidth 1\nheight 1\ncolumns\n-\nrows\n-\ngoal -\n", "BadNumber:5"),
    (b"a.non", b"\nwidth 1\nheight 1\ncolumns\n1\nrows\n1\ngoal -\n", "BadGoal:8"),
    (b"a.non", b"width 256\nheight 1\nrows\n256\ncolumns\n" + b"1\n" * 256, non(256, 1, b"256", b"/".join([b"1"] * 256))),
    (b"a.non", b"width 257\nheight 1\nrows\n256\ncolumns\n" + b"1\n" * 257, "BadSize"),
    (b"a.non", b"width 1\nheight 257\nrows\n" + b"1\n" * 257 + b"columns\n256\n", "BadSize"),
    (b"a.non", b"width\nheight 1\n" + SECTIONS, "BadSize"),
    (b"a.non", b"width 1 1\nheight 1\n" + SECTIONS, "BadSize"),
    (b"a.non", b"width -1\nheight 1\n" + SECTIONS, "BadSize"),
    (b"a.non", b"width +1\nheight 1\n" + SECTIONS, "BadSize"),
    (b"a.non", b"width x\nheight 1\n" + SECTIONS, "BadSize"),
    (b"a.non", b"width 1\nheight 00\n" + SECTIONS, "BadSize"),
    (b"a.non", b"width 1\nheight 1\x0b\n" + SECTIONS, "BadSize"),
    (b"a.non", b'width "1"\nheight 1\n' + SECTIONS, "BadSize"),
    (b"a.non", b"width 1,\nheight 1\n" + SECTIONS, "BadSize"),
    (b"a.non", b"width 1\nheight ,1\n" + SECTIONS, "BadSize"),
    (b"a.non", b"width 4294967297\nheight 1\n" + SECTIONS, "BadSize"),
    (b"a.non", b"width " + b"0" * 5_000 + b"1\nheight 1\n" + SECTIONS, ONE_CELL),
    (b"a.non", b"width " + b"1" * 5_000 + b"\nheight 1\n" + SECTIONS, "BadSize"),
    (b"a.non", b"width 0\nwidth 1\nheight 1\n" + SECTIONS, "BadSize"),
    (b"a.non", b"width 1\nwidth 0\nheight 1\n" + SECTIONS, "Twice:2"),
    (b"a.non", ONE_CELL_SIDES + b"1\n" + SECTIONS, "BadLine:3"),
    (b"a.non", ONE_CELL_SIDES + b"-\n- 2\n" + SECTIONS, "BadLine:3"),
    (b"a.non", ONE_CELL_SIDES + b"title\n1\n" + SECTIONS, "BadLine:4"),
    (b"a.non", ONE_CELL_SIDES + SECTIONS + b"goal 1\n1\n", "BadLine:8"),
    (b"a.non", ONE_CELL + b"goal 1\n\n \t\n# 1\n", non(1, 1, b"1", b"1", b"", b"1")),
    (b"a.non", ONE_CELL + b"width 1", "Twice:9"),
    (b"a.non", ONE_CELL + b"HEIGHT 1", "Twice:9"),
    (b"a.non", ONE_CELL + b"rows\n1\n", "Twice:9"),
    (b"a.non", ONE_CELL + b"columns\n1\n", "Twice:9"),
    (b"a.non", ONE_CELL + b"columns\nrows\nheight\nwidth\n", "Twice:9"),
    (b"a.non", headed(b"columns", b"rows"), "Twice:6"),
    (b"a.non", ONE_CELL_SIDES + b"rows\nrows\n1\ncolumns\n1\n", "Twice:4"),
    (b"a.non", ONE_CELL_SIDES + b"rows\n1\n1\ncolumns\n1\n", "BadCount"),
    (b"a.non", ONE_CELL_SIDES + b"rows\n1\ncolumns\n1\n1\n", "BadCount"),
    (b"a.non", ONE_CELL_SIDES + b"rows\ncolumns\n1\n", "BadCount"),
    (b"a.non", ONE_CELL_SIDES + b"rows\n1\ncolumns\n", "BadCount"),
    (b"a.non", ONE_CELL_SIDES + b"rows\n1\ncolumns\n@ 1\n", "BadNumber:6"),
    (b"a.non", ONE_CELL_SIDES + b"rows\n\n# -\n-\n\ncolumns\n-\n", "BadNumber:6"),
    (b"a.non", ONE_CELL_SIDES + b"columns\n\n# -\n-\n\nrows\n-\n", "BadNumber:6"),
    (b"a.non", ONE_CELL_SIDES + b"columns\n1\nrows\n300\n", "BadNumber:6"),
    # `.mk`
    (b"a.mk", b"4 2\n2\n1 1\n#\n1\n1\n1\n1\n", non(4, 2, b"2/1,1", b"1/1/1/1")),
    (b"a.Mk", b"\n4 2\n\n2\n\n1 1\n # rows above\n\n1\n1\n1\n1\n", non(4, 2, b"2/1,1", b"1/1/1/1")),
    (b"a.mk", b"1 1\n1\n#9\n1\n# x\nx x\n#\n-\n", ONE_CELL),
    (b"a.mk", b"1 1\n1\n#\n1\n#", ONE_CELL),
    (b"a.mk", b"1 2\n\n\n#\n\n\n", non(2, 1, b"0", b"0/0")),
    (b"a.mk", b"2 1\n\n\n#\n\n\n", non(1, 2, b"0/0", b"0")),
    (b"a.mk", b"2 1\n1\n\n#\n1\n", non(1, 2, b"1/0", b"1")),
    (b"a.mk", b"2 1\n1\n#\n1\n\n", non(2, 1, b"1", b"1/0")),
    (b"a.mk", b"1 2\n1\n#\n1\n2\n", non(2, 1, b"1", b"1/2")),
    (b"a.mk", b"1 1\n1\n1\n", "NoSection"),
    (b"a.mk", b"1 1\n", "NoSection"),
    (b"a.mk", b"1 1\n-\n1 #\n", "NoSection"),
    (b"a.mk", b"1 1\n#\n1\n", "BadCount"),
    (b"a.mk", b"1 1\n1\n#\n", "BadCount"),
    (b"a.mk", b"1 1\n1\n#\n#\n1\n", "BadCount"),
    (b"a.mk", b"1 1\n-\n-\n#\n1\n", "BadCount"),
    (b"a.mk", b"2 3\n1\n1\n#\n1\n1\n", "BadCount"),
    (b"a.mk", b"2 3\n1\n1\n1\n#\n1\n1\n1\n", "BadCount"),
    (b"a.mk", b"1 1\n1\n#\n-\n", "BadNumber:4"),
    (b"a.mk", b"1 1\n-\n#\n-\n", "BadNumber:2"),
    (b"a.mk", b"2 1\n-\n#\n1\n-\n", "BadNumber:2"),
    (b"a.mk", b"2 1\n1\n#\n1\n\n-\n", "BadNumber:6"),
    (b"a.mk", b"1 1\nwidth 1\n#\n1\n", "BadNumber:2"),
    (b"a.mk", b"1 1\n1\n#\n1\n#" + b" " * (MAX_TEXT - 11), ONE_CELL),
    (b"a.mk", b"1 1\n1\n#\n1\n#" + b" " * (MAX_TEXT - 10), "TooLong"),
    (b"a.mk", b" " * (MAX_TEXT + 1), "TooLong"),
    (b"a.mk", b"256 1\n" + b"1\n" * 256 + b"#\n256\n", non(1, 256, b"/".join([b"1"] * 256), b"256")),
    # `.nin`
    (b"a.nin", b"4 2\n2\n1 1\n1\n1\n1\n1\n", non(4, 2, b"2/1,1", b"1/1/1/1")),
    (b"a.nIn", b"2 4\n2\n1 1\n1\n1\n1\n1\n", non(4, 2, b"2/1,1", b"1/1/1/1")),
    (b"a.nin", b"2 1\n1\n1\n2\n", non(1, 2, b"1/1", b"2")),
    (b"a.nin", b"1 2\n1\n1\n2\n", non(1, 2, b"1/1", b"2")),
    (b"a.nin", b"2 1\n2\n1\n1\n", non(2, 1, b"2", b"1/1")),
    (b"a.nin", b"1 2\n2\n1\n1\n", non(2, 1, b"2", b"1/1")),
    (b"a.nin", b"2 1\n0\n0\n0\n", non(2, 1, b"0", b"0/0")),
    (b"a.nin", b"1 2\n0\n0\n0\n", non(1, 2, b"0/0", b"0")),
    (b"a.nin", b"2 1\n1\n0\n1\n", non(2, 1, b"1", b"0/1")),
    (b"a.nin", b"1 2\n1\n0\n1\n", non(1, 2, b"1/0", b"1")),
    (b"a.nin", b"2 1\n1\n1\n1\n", non(2, 1, b"1", b"1/1")),
    (b"a.nin", b"1 2\n9\n9\n9\n", non(1, 2, b"9/9", b"9")),
    (b"a.nin", b"2 1\n9\n9\n9\n", non(2, 1, b"9", b"9/9")),
    (b"a.nin", b"3 2\n1 1\n1\n1 1\n1\n0\n", non(3, 2, b"1,1/1", b"1,1/1/0")),
    (b"a.nin", b"2 3\n1\n1\n\n1\n1\n", non(2, 3, b"1/1/0", b"1/1")),
    (b"a.nin", b"3 2\n1\n1\n1\n1 1\n1\n", non(2, 3, b"1/1/1", b"1,1/1")),
    (b"a.nin", b"3 2\n2\n1\n1 1\n1\n1\n", non(3, 2, b"2/1", b"1,1/1/1")),
    (b"a.nin", b"1 1\n1\n", "BadCount"),
    (b"a.nin", b"1 1\n1\n1\n1\n", "BadCount"),
    (b"a.nin", b"1 1\n-\n-\n-\n", "BadCount"),
    (b"a.nin", b"1 1\n1\n#\n1\n", "BadCount"),
    (b"a.nin", b"1 2\n1\n#\n1\n", "BadNumber:3"),
    (b"a.nin", b"1 1\n\n-\n1\n", "BadNumber:3"),
    (b"a.nin", b"1 1\n-\n-\n", "BadNumber:2"),
    (b"a.nin", b"1 1\n1\n1 257\n", "BadNumber:3"),
    (b"a.nin", b"1 1\n1\n1\n" + b" " * (MAX_TEXT - 8), ONE_CELL),
    (b"a.nin", b"1 1\n1\n1\n" + b" " * (MAX_TEXT - 7), "TooLong"),
    (b"a.nin", b"256 256\n" + b"256\n" * 512, FULL),
    # Names
    (b"a.NON", ONE_CELL, ONE_CELL),
    (b"a.nOn", ONE_CELL, ONE_CELL),
    (b".non", ONE_CELL, ONE_CELL),
    (b"a b.mk.non", ONE_CELL, ONE_CELL),
    (b"a.MK", b"1 1\n1\n#\n1\n", ONE_CELL),
    (b"a.non.mK", b"1 1\n1\n#\n1\n", ONE_CELL),
    (b"a.NIN", b"1 1\n1\n1\n", ONE_CELL),
    (b"non", ONE_CELL, "UnknownFormat"),
    (b"anon", ONE_CELL, "UnknownFormat"),
    (b"mk", b"1 1\n1\n#\n1\n", "UnknownFormat"),
    (b"a.nonn", ONE_CELL, "UnknownFormat"),
    (b"a.non.", ONE_CELL, "UnknownFormat"),
    (b"a.non.txt", ONE_CELL, "UnknownFormat"),
    (b"a.no", ONE_CELL, "UnknownFormat"),
    (b"a.ni", b"", "UnknownFormat"),
    (b"a.mkv", b"\xff" * (MAX_TEXT + 1), "UnknownFormat"),
    # Texts of all formats
    (b"a.mk", mk_row(b"129"), non(1, 1, b"129", b"1")),
    (b"a.mk", b"1 1\n0\n#\n0\n", non(1, 1, b"0", b"0")),
    (b"a.nin", b" 0001,1\t\n\n1\n1", ONE_CELL),
    (
        b"a.non",
        b"width 2\r\nheight 3\r\nrows\r\n1\r\n\r\n2\r\ncolumns\r\n1,1\r\n1\r\n",
        non(2, 3, b"1/0/2", b"1,1/1"),
    ),
    (b"a.txt", b"", "UnknownFormat"),
    (b"a.non", b"width 2\nrows\n1\ncolumns\n1\n0\n", "NoSize"),
    (b"a.non", b"width 0\nheight 1\n", "BadSize"),
    (b"a.mk", b"257 256\n", "BadSize"),
    (b"a.non", b"7\n" + ONE_CELL_SIDES + b"width 1\n" + SECTIONS, "BadLine:1"),
    (b"a.non", ONE_CELL_SIDES + b"width 1\n" + SECTIONS, "Twice:3"),
    (b"a.non", b"width 2\nheight 1\nrows\n1\ncolumns\n", "BadCount"),
    (b"a.mk", b"2 2\n2 x\n1\n#\n1\n1\n", "BadNumber:2"),
    (b"a.nin", b"1 1\n1\r\r\n1\n", "BadNumber:2"),
    (b"a.nin", b"1 1\n1\r \n1\n", "BadNumber:2"),
    (b"a.nin", b"1 1\n0 1\n1\n", "BadNumber:2"),
    (b"a.nin", b"1 1\n1x\n1\n", "BadNumber:2"),
    (b"a.nin", b"#\n1 1\n", "NoSize"),
    (b"a.mk", b"# 5\n1\n#\n1\n", "BadSize"),
    (b"a.mk", b"1 1\n1\n\n#\n1\n", ONE_CELL),
    (b"a.non", ONE_CELL_SIDES + SECTIONS + b'goal "10"\n', "BadGoal:7"),
    (b"a.non", b"  # 7\n" + ONE_CELL_SIDES + b"rows\n# 7\n1\ncolumns\n1\n", ONE_CELL),
    (
        b"a.non",
        b"version 2\n" + ONE_CELL_SIDES + b"rows\n\n1\ncolumns\n1\ncolor x\n\na\nb\nc\nd\ne\nf\ng\nh\ni\nj\nk\n",
        ONE_CELL,
    ),
    (b"a.non", ONE_CELL_SIDES + b"rows\n1\nversion 2\n7\ncolumns\n1\n", "BadLine:6"),
    (b"a.non", b"WIDTH1\nHeight 1\nROWS x\n1\nCoLuMnS\n1\n", ONE_CELL),
    (b"a.non", b"columns\n0 1\nrows\n0 1\nheight 1\nwidth 1\n", "BadNumber:2"),
    (b"a.non", headed(b'by x"a"b" y'), b'by "a"b"\n' + ONE_CELL),
    (b"a.non", ONE_CELL + b"goal 1\ngoal x\n", non(1, 1, b"1", b"1", b"", b"1")),
    (b"a.non", ONE_CELL_SIDES + b"height 2\n" + SECTIONS + b"rows\n", "Twice:3"),
    (b"a.non", ONE_CELL_SIDES + b"rows\n1\nrows\n7\ncolumns\n1\n", "Twice:5"),
    (b"a.non", ONE_CELL_SIDES + b"rows\n,,\ncolumns\n,\n", non(1, 1, b"0", b"0")),
    (b"a.non", b",\n" + ONE_CELL, "BadLine:1"),
    (b"a.non", ONE_CELL_SIDES + b"rows\n\ncolumns\n1\n", EMPTY_ROW),
    # Texts with a clue of more than eight numbers
    (
        b"a.non",
        b'title "a"\nby b\nlicense\nwidth 2\nheight 3\nrows\n1\n\n1 1 1 1 1 1 1 1 1 1\n\ncolumns\n2\n1\ngoal 101010\n',
        non(2, 3, b"1/0/1,1,1,1,1,1,1,1,1,1", b"2/1", b'title "a"\nby "b"\nlicense ""\n', b"101010"),
    ),
    (b"a.mk", b"2 1\n\n1\n\n" + b"1 " * 17 + b"1\n\n#\n\n2\n", non(1, 2, b"1/" + b",".join([b"1"] * 18), b"2")),
    (b"a.nin", b"2 1\n1\n\n1 2 3 4 5 6 7 8 9\n\n1\n", non(2, 1, b"1", b"1,2,3,4,5,6,7,8,9/1")),
    (b"a.non", USUAL_NON, USUAL_NON),
    (b"a.mk", b"2 1\n1\n" + b"1 " * 17 + b"1\n#\n2\n", non(1, 2, b"1/" + b",".join([b"1"] * 18), b"2")),
    (b"a.nin", b"2 1\n1\n1 2 3 4 5 6 7 8 9\n1\n", non(2, 1, b"1", b"1,2,3,4,5,6,7,8,9/1")),
    (b"a.non", ONE_CELL_SIDES + SECTIONS[:-2] + b"1 " * 10 + b"0\n", "BadNumber:6"),
    (b"a.mk", b"1 1\n1\n#\n" + b"1 " * 10 + b"0\n", "BadNumber:4"),
    (b"a.nin", b"1 1\n1\n" + b"1 " * 10 + b"0\n", "BadNumber:3"),
    # The first faults after a list was made
    (b"a.non", b"width 1\nheight 1\n", "NoSection"),
    (b"a.non", b"7\nwidth 1\nheight 1\nrows\ncolumns\n", "BadLine:1"),
    (b"a.non", b"width 1\nwidth 1\nheight 1\nrows\ncolumns\n", "Twice:2"),
    (b"a.non", b"width 1\nheight 1\nrows\ncolumns\n", "BadCount"),
    (b"a.non", b"by c\n" + ONE_CELL_SIDES + SECTIONS + b"goal x\n", "BadGoal:8"),
    (b"a.mk", b"0 1\n", "BadSize"),
    (b"a.mk", b"1 1\n1\n", "NoSection"),
    (b"a.mk", b"1 1\n1\n#\n1\n1\n", "BadCount"),
    (b"a.nin", b"0 1\n", "BadSize"),
    # The greatest sizes, clues and texts
    (b"a.mk", b"256 256\n" + b"1\n" * 256 + b"#\n" + b"1\n" * 256, ONES),
    (b"a.nin", b"256 256\n" + b"1\n" * 512, ONES),
    (b"a.mk", b"129 128\n" + b"1\n" * 128 + b"#\n" + b"1\n" * 128, "BadCount"),
    (b"a.mk", b"256 257\n" + b"1\n" * 256 + b"#\n" + b"1\n" * 256, "BadSize"),
    (b"a.non", ONES + b'\ngoal "' + FULL_GOAL + b'"\n', ONES + b'\ngoal "' + FULL_GOAL + b'"\n'),
    (b"a.non", b"\n" * MAX_TEXT, "NoSize"),
    (b"a.mk", b"\n" * MAX_TEXT, "NoSize"),
    (b"a.nin", b"\n" * MAX_TEXT, "NoSize"),
    (b"a.mk", b"1 1\n1\n#\n1\n" + b" " * (MAX_TEXT - 10), ONE_CELL),
    (b"a.mk", b"1 1\n1\n#\n1\n" + b" " * (MAX_TEXT - 9), "TooLong"),
    (b"a.non", ONE_CELL_SIDES + SECTIONS + b"title " + LONGEST_TEXT, b'title "' + LONGEST_TEXT + b'"\n' + ONE_CELL),
    (b"a.non", ONE_CELL_SIDES + SECTIONS + b"title " + LONGEST_TEXT + b"t", "BadLine:7"),
    (b"a.non", ONE_CELL_SIDES + SECTIONS + b"goal " + FULL_GOAL + b"1", "BadGoal:7"),
]

# Each row has a name, a text, a format, and what `convert` to that format prints, as above.
HAND_CONVERTED = [
    (b"a.non", DEMO, "mk", b"10 5\n2\n2 1\n1 1\n3\n1 1\n1 1\n2\n1 1\n1 2\n2\n#\n2 1\n2 1 3\n7\n1 3\n2 1\n"),
    (b"a.non", DEMO, "nin", b"5 10\n2\n2 1\n1 1\n3\n1 1\n1 1\n2\n1 1\n1 2\n2\n2 1\n2 1 3\n7\n1 3\n2 1\n"),
    (b"a.nin", b"02, 004\n2\n1,01\n1\n1\n1\n1\n\n", "mk", b"2 4\n2\n1 1\n#\n1\n1\n1\n1\n"),
    (b"a.nin", b"02, 004\n2\n1,01\n1\n1\n1\n1\n\n", "nin", b"4 2\n2\n1 1\n1\n1\n1\n1\n"),
    (b"a.mk", b"1 2\n\n\n#\n\n\n", "mk", b"1 2\n0\n#\n0\n0\n"),
    (b"a.mk", b"1 2\n\n\n#\n\n\n", "nin", b"2 1\n0\n0\n0\n"),
    (b"a.mk", b"1 2\n1\n#\n1\n2\n", "nin", "Ambiguous"),
    (b"a.mk", b"1 2\n1\n#\n1\n2\n", "mk", b"1 2\n1\n#\n1\n2\n"),
    (b"a.mk", b"2 1\n2\n1\n#\n1\n", "nin", "Ambiguous"),
    (b"a.mk", b"1 2\n1\n#\n1\n1\n", "nin", b"2 1\n1\n1\n1\n"),
    (b"a.mk", b"1 2\n1\n#\n9\n2\n", "nin", b"2 1\n1\n9\n2\n"),
    (b"a.mk", b"2 2\n1\n1\n#\n1\n2\n", "nin", b"2 2\n1\n1\n1\n2\n"),
    (b"a.mk", b"1 2\n1\n#\n1\n0\n", "nin", b"2 1\n1\n1\n0\n"),
    (b"a.mk", b"1 1\n-\n#\n1\n", "mk", "BadNumber:2"),
    (b"a.mk", b"1 1\n-\n#\n1\n", "nin", "BadNumber:2"),
    (b"a.txt", b"1 1\n1\n#\n1\n", "nin", "UnknownFormat"),
    (b"a.mk", b"\xff" * (MAX_TEXT + 1), "mk", "TooLong"),
    (b"a.non", ONES, "mk", b"256 256\n" + b"1\n" * 256 + b"#\n" + b"1\n" * 256),
    (b"a.non", ONES, "nin", b"256 256\n" + b"1\n" * 512),
]

# Each row has a text in `.non` and the word for its goal.
HAND_GOALS = [
    (DEMO, "meets"),
    (DEMO[:-3] + b'1"', "misses"),
    (DEMO[: DEMO.index(b"goal")], "absent"),
    (DEMO.replace(b'111000"', b'101100"'), "misses"),
    (DEMO.replace(b'111000"', b'011001"'), "misses"),
    (ONE_CELL + b"goal 1", "meets"),
    (ONE_CELL + b"goal 0", "misses"),
    (EMPTY_ROW + b"goal 0", "misses"),
    (EMPTY_ROW + b"goal 1", "misses"),
    (non(1, 1, b"0", b"0", b"", b"0"), "meets"),
    (non(2, 2, b"1/1", b"1/1", b"", b"1001"), "meets"),
    (non(2, 2, b"1/1", b"1/1", b"", b"0110"), "meets"),
    (non(2, 2, b"1/1", b"1/1", b"", b"1010"), "misses"),
    (non(3, 1, b"1,1", b"1/0/1", b"", b"101"), "meets"),
    (non(3, 1, b"2", b"1/0/1", b"", b"101"), "misses"),
    (non(3, 1, b"1,1", b"1/0/0", b"", b"101"), "misses"),
    (non(1, 3, b"1/0/1", b"1,1", b"", b"101"), "meets"),
    (non(2, 3, b"1/2/0", b"1/2", b"", b"011100"), "meets"),
    (non(2, 3, b"1/2/0", b"1/1,1", b"", b"011100"), "misses"),
    (non(2, 3, b"1/1,1/0", b"1/2", b"", b"011100"), "misses"),
    (non(2, 3, b"1/2/0", b"2/1", b"", b"011100"), "misses"),
    (FULL + b"goal " + FULL_GOAL, "meets"),
    (FULL + b"goal " + FULL_GOAL[1:] + b"0", "misses"),
]

ONE_ENTRY = b"@ a.mk\n1 1\n1\n#\n1\n"
BLANK = b" " * (MAX_COLLECTION - len(ONE_ENTRY) - 1) + b"\n"

# Each row has a collection, and its entries, as pairs of a name and a text, or as a str the fault.
HAND_CUT = [
    (b"", []),
    (b"\n \t\r\n\n\r\n", []),
    (
        b"@ small.mk\n1 1\n0\n#\n0\n@ crossed.nin\n1 1\n1\n0\n",
        [(b"small.mk", b"1 1\n0\n#\n0\n"), (b"crossed.nin", b"1 1\n1\n0\n")],
    ),
    (b"\n \t\r\n\n" + ONE_ENTRY, [(b"a.mk", b"1 1\n1\n#\n1\n")]),
    (b"@ a.mk\r\n1 1\r\n1\r\n#\r\n1\r\n", [(b"a.mk", b"1 1\r\n1\r\n#\r\n1\r\n")]),
    (b"@ a.mk\n1 1\n1\n#\n1", [(b"a.mk", b"1 1\n1\n#\n1")]),
    (b"@ a.mk\n \n\n\n1 1\n1\n#\n-\n\n@ b.mk\n\n", [(b"a.mk", b" \n\n\n1 1\n1\n#\n-\n\n"), (b"b.mk", b"\n")]),
    (b"@ a.mk", [(b"a.mk", b"")]),
    (b"@ a.mk\r", [(b"a.mk", b"")]),
    (b"@ a.mk\n@ b.nin\n@ c.non", [(b"a.mk", b""), (b"b.nin", b""), (b"c.non", b"")]),
    (b"@ a.mk\n@ a.mk\n", [(b"a.mk", b""), (b"a.mk", b"")]),
    (b"@  a.mk \n@\ta.mk\t\r\n@ \t a.mk", [(b"a.mk", b""), (b"a.mk", b""), (b"a.mk", b"")]),
    (b"@ a b , \"c\".mk\n", [(b'a b , "c".mk', b"")]),
    (b"@ @\n@ # a\n", [(b"@", b""), (b"# a", b"")]),
    (b"@ a.mk\r\r\n@ \x0b\n@ \r\r\n", [(b"a.mk\r", b""), (b"\x0b", b""), (b"\r", b"")]),
    (b"@ a.mk\r \n", [(b"a.mk\r", b"")]),
    (b"@ a.mk\n@b.mk\n @ c.mk\n\t@\na @ d.mk\n@@ e.mk\n", [(b"a.mk", b"@b.mk\n @ c.mk\n\t@\na @ d.mk\n@@ e.mk\n")]),
    (b"@ a.mk\n@\r\r\n@\x0b\n@\0\n", [(b"a.mk", b"@\r\r\n@\x0b\n@\0\n")]),
    (b"@ a.mk\n1 1\r@ b.mk\r", [(b"a.mk", b"1 1\r@ b.mk\r")]),
    (b"@\n", "Stray:1"),
    (b"@", "Stray:1"),
    (b"@ \n", "Stray:1"),
    (b"@\t \t\r\n", "Stray:1"),
    (b"@\r\n", "Stray:1"),
    (b"@ a.mk\n1 1\n@\n", "Stray:3"),
    (b"@ a.mk\n1 1\n@\r\n@\n", "Stray:3"),
    (b"@ a.mk\n1 1\n@ ", "Stray:3"),
    (b"\n\n1 1\n@ a.mk\n@\n", "Stray:3"),
    (b"# a\n@ a.mk\n", "Stray:1"),
    (b"@a.mk\n", "Stray:1"),
    (b" @ a.mk\n", "Stray:1"),
    (b"a @ b\n", "Stray:1"),
    (b"\r\r\n@ a.mk\n", "Stray:1"),
    (b"\r \n@ a.mk\n", "Stray:1"),
    (b"\x0c\n@ a.mk\n", "Stray:1"),
    (BYTE_ORDER_MARK + ONE_ENTRY, "Stray:1"),
    (DEMO, "Stray:1"),
    (b"@ a.mk\n" * MAX_ENTRIES, [(b"a.mk", b"")] * MAX_ENTRIES),
    (b"@ a.mk\n" * MAX_ENTRIES + b"@b.mk\n", [(b"a.mk", b"")] * (MAX_ENTRIES - 1) + [(b"a.mk", b"@b.mk\n")]),
    (b"@ a.mk\n" * (MAX_ENTRIES + 1), "TooMany"),
    (b"@ a.mk\n" * (MAX_ENTRIES + 1) + b"@", "Stray:10002"),
    (b"@ a.mk\n" * MAX_ENTRIES + b"@\n", "Stray:10001"),
    (b"7\n" + b"@ a.mk\n" * (MAX_ENTRIES + 1), "Stray:1"),
    (BLANK + ONE_ENTRY, [(b"a.mk", b"1 1\n1\n#\n1\n")]),
    (ONE_ENTRY + BLANK, [(b"a.mk", b"1 1\n1\n#\n1\n" + BLANK)]),
    (ONE_ENTRY + BLANK + b"\n", "TooLong"),
    (b"7" + BLANK + ONE_ENTRY, "TooLong"),
    (b"@ a.mk\n" * (MAX_COLLECTION // 7 + 1), "TooLong"),
    (b"\n@ a.mk \r\n1 1\n@b\n\n@\tb.nin", [(b"a.mk", b"1 1\n@b\n\n"), (b"b.nin", b"")]),
    (b"\n" * 1_000_000 + ONE_ENTRY, [(b"a.mk", b"1 1\n1\n#\n1\n")]),
    (b"\n" * (MAX_COLLECTION + 1), "TooLong"),
    (b"x\n", "Stray:1"),
    (b"x\n@ a.mk\n", "Stray:1"),
    (b"@ a.mk\n@\n", "Stray:2"),
    (b"@ a.mk\n@\r\n", "Stray:2"),
    (b"@ a.mk\n@\r", "Stray:2"),
    (b"@ a.mk\n@\rb\n", [(b"a.mk", b"@\rb\n")]),
]

# Each row has the name of an entry, as it stands in a marker line, and how a survey prints it.
HAND_NAMES = [
    (b"a.mk", b"a.mk"),
    (b"folder/a  b\tc.MK", b"folder/a  b?c.MK"),
    (b"\0\x01\x1f\x20!~\x7f\x80\x9f\xa0\xff.mk", b"??? !~?\x80\x9f\xa0\xff.mk"),
    (b"a\rb\r\r\x0b\x0c\x1b[1m.mk", b"a?b?????[1m.mk"),
    (b"\xc3\xa9?*\\.mk", b"\xc3\xa9?*\\.mk"),
    (b"1 1x1 refused none line 0 0 0 absent a.mk", b"1 1x1 refused none line 0 0 0 absent a.mk"),
    (b"refused BadSize \x7f", b"refused BadSize ?"),
    (b"n" * 65_536, b"n" * 65_536),
]


# Texts that are made


def base_variants():
    """Yields the variants of the base texts: their prefixes; each with one byte replaced; each with one byte inserted; and
    each prefix that ends after a line feed joined with each suffix that begins after one."""
    for text in BASE_TEXTS:
        for end in range(len(text) + 1):
            yield text[:end]
    for text in BASE_TEXTS:
        for index in range(len(text)):
            for value in range(256):
                yield text[:index] + bytes([value]) + text[index + 1 :]
    for text in BASE_TEXTS:
        for index in range(len(text) + 1):
            for value in INSERTED:
                yield text[:index] + bytes([value]) + text[index:]
    cuts = [[index + 1 for index, value in enumerate(text) if value == ord("\n")] for text in BASE_TEXTS]
    for first, first_cuts in zip(BASE_TEXTS, cuts):
        for second, second_cuts in zip(BASE_TEXTS, cuts):
            for end in first_cuts:
                for start in second_cuts:
                    yield first[:end] + second[start:]


def random_texts():
    """Yields random texts of 0 to 199 bytes, made by a linear congruential generator."""
    state = 1

    def draw(count):
        nonlocal state
        state = (state * 6364136223846793005 + 1442695040888963407) % 2**64
        return (state >> 33) % count

    for _ in range(RANDOM_TEXTS):
        length = draw(200)
        yield bytes([RANDOM_BYTES[draw(len(RANDOM_BYTES))] for _ in range(length)])


def changed(source, text):
    """Returns a text with a byte replaced, inserted or dropped, or with a line repeated, dropped or moved."""
    lines = text.splitlines(keepends=True) or [b""]
    index, place = source.randrange(len(text) + 1), source.randrange(len(lines))
    new = bytes([source.choice(RANDOM_BYTES)])
    match source.randrange(6):
        case 0:
            return text[:index] + new + text[index + 1 :]
        case 1:
            return text[:index] + new + text[index:]
        case 2:
            return text[:index] + text[index + 1 :]
        case 3:
            return b"".join(lines[:place] + lines[place : place + 1] + lines[place:])
        case 4:
            return b"".join(lines[:place] + lines[place + 1 :])
        case _:
            line = lines.pop(place)
            lines.insert(source.randrange(len(lines) + 1), line)
            return b"".join(lines)


def changed_texts(made):
    """Yields pairs of a format and a text: texts of puzzles in that format, with one to four changes."""
    source = random.Random(2)
    for format in FORMATS:
        texts = [text for its_format, text in made if its_format == format]
        for _ in range(CHANGED_TEXTS):
            text = source.choice(texts)
            for _ in range(source.randint(1, 4)):
                text = changed(source, text)
            yield format, text


def runs(cells):
    """Returns the clue of a line whose cells are bytes, b"1" for filled and b"0" for blank."""
    return tuple(map(len, cells.replace(b"0", b" ").split()))


def made_texts(source):
    """Returns some random texts of a puzzle, with quotes and with bytes that mean something elsewhere in a format."""
    return tuple(
        (keyword, bytes(source.choices(b'ab "\'\\#@,\t\r\x0b\0\x7f\xff', k=source.randint(0, 12))))
        for keyword in readers.TEXT_KEYWORDS
        if source.random() < 0.2
    )


def made_puzzle(source):
    """Returns a random puzzle: in about half of the cases one whose clues are those of a picture, which may be its goal,
    and otherwise one with random clues. Some have their sides exchanged, so that hardly any is admissible."""
    if source.random() < 0.04:  # A large picture is all filled or all blank, so that it is graded quickly.
        width, height, shares = source.randint(1, 256), source.randint(1, 256), (0, 1)
    else:
        width, height, shares = source.randint(1, 9), source.randint(1, 9), (0, 0.3, 0.6, 0.8, 1)
    share = source.choice(shares)
    cells = bytes([ord("1") if source.random() < share else ord("0") for _ in range(width * height)])
    if source.random() < 0.5:
        rows = [runs(cells[index * width : (index + 1) * width]) for index in range(height)]
        columns = [runs(cells[index::width]) for index in range(width)]
    else:
        limit = source.choice((1, 2, 9, 256))

        def made_clue():
            return tuple([source.randint(1, limit) for _ in range(source.randint(0, 11))])

        rows, columns = [made_clue() for _ in range(height)], [made_clue() for _ in range(width)]
    if source.random() < 0.3:
        clues = rows + columns
        width, height = height, width
        rows, columns = clues[:height], clues[height:]
    goal = cells if source.random() < 0.7 else None
    return Puzzle(width, height, tuple(rows), tuple(columns), made_texts(source), goal)


# Comparing


def outcome(call, *words):
    """Returns what a call of the readers returns, or as a str the fault that it raises."""
    try:
        return call(*words)
    except Fault as fault:
        return str(fault)


def converted(format, puzzle):
    """Returns the text of a puzzle in a format, or as a str the fault, also if a fault stands in place of the puzzle."""
    return puzzle if isinstance(puzzle, str) else outcome(readers.written, format, puzzle)


def wanted_line(number, name, text):
    """Returns the part of an entry's line that the readers say: all but the verdict, the grade and the three counts."""
    puzzle, name = outcome(readers.read_entry, name, text), readers.printed_name(name)
    if isinstance(puzzle, str):
        return b"%d refused %s %s" % (number, puzzle.encode(), name)
    return b"%d %dx%d %s %s" % (number, puzzle.width, puzzle.height, readers.goal_word(puzzle).encode(), name)


def given_line(line):
    """Returns the same part of a line that was printed, and its verdict and grade, or b"refused" and None in their place. If
    the line has no such parts it is returned as it is, with None and None."""
    words = line.split(b" ", 8)
    if words[1:2] == [b"refused"]:
        return line, b"refused", None
    if len(words) == 9 and words[2] in VERDICTS and words[3] in GRADES and all(map(bytes.isdigit, words[4:7])):
        return b" ".join([*words[:2], *words[7:]]), words[2], words[3]
    return line, None, None


def totals_line(count, words):
    """Returns the last line of a survey of so many entries, in whose lines the verdicts and grades stand so often."""
    return b" ".join([b"entries %d" % count, *(b"%s %d" % (word, words[word]) for word in (b"refused", *VERDICTS, *GRADES))])


def compare_survey(results, program, collection):
    """Compares a survey of a collection with what the readers say of it: a fault, or the entries' lines and the totals."""
    entries, printed = outcome(readers.cut, collection), program.printed("survey", "--guesses", "0", text=collection)
    if isinstance(entries, str) or isinstance(printed, str):
        results.compare("survey", collection, entries, printed)
        return
    lines = printed.split(b"\n")
    results.compare("survey, count of lines", collection, len(entries) + 2, len(lines))
    words = Counter()
    for number, ((name, text), line) in enumerate(zip(entries, lines), 1):
        given, verdict, grade = given_line(line)
        results.compare(f"survey, {name!r}", text, wanted_line(number, name, text), given)
        words.update((verdict, grade))
    results.compare("survey, totals", collection, [totals_line(len(entries), words), b""], lines[len(entries) :])


def compare_surveys(results, program, entries):
    """Compares surveys of the entries, given as pairs of a name and a text, in as few collections as hold them. A text may
    have marker lines, so a collection may have more entries than were given; one that makes a collection faulty has a
    collection of its own."""
    parts, count, length = [], 0, 0
    for name, text in entries:
        part = b"@ %s\n%s" % (name, text)
        if not part.endswith(b"\n"):
            part += b"\n"
        found = outcome(readers.cut, part)
        if isinstance(found, str):
            compare_survey(results, program, part)
            continue
        if count + len(found) > MAX_ENTRIES or length + len(part) > MAX_COLLECTION:
            compare_survey(results, program, b"".join(parts))
            parts, count, length = [], 0, 0
        parts.append(part)
        count += len(found)
        length += len(part)
    if parts:
        compare_survey(results, program, b"".join(parts))


def compare_with_library(results, library, format, text):
    """Compares what the library converts a text to with what the readers write of it: in all formats if it is read."""
    puzzle, name = outcome(readers.read, format, text), b"a." + format.encode()
    for target in ("non",) if isinstance(puzzle, str) else FORMATS:
        wanted = converted(target, puzzle)
        results.compare(f"library, {format} to {target}", text, wanted, library.convert(name, text, target))


# The parts of the test


def test_readers(results):
    """Compares the readers with the tables."""
    for name, text, wanted in HAND_MADE:
        results.compare(f"readers, {name!r}", text, wanted, converted("non", outcome(readers.read_entry, name, text)))
    for name, text, target, wanted in HAND_CONVERTED:
        given = converted(target, outcome(readers.read_entry, name, text))
        results.compare(f"readers, {name!r} to {target}", text, wanted, given)
    for text, wanted in HAND_GOALS:
        results.compare("readers, goal", text, wanted, readers.goal_word(readers.read("non", text)))
    for collection, wanted in HAND_CUT:
        results.compare("readers, collection", collection, wanted, outcome(readers.cut, collection))
    for name, wanted in HAND_NAMES:
        results.compare("readers, name", name, wanted, readers.printed_name(name))


def test_made_puzzles(results, puzzles):
    """Compares puzzles with what the readers read of what they write of them. Returns the texts, as pairs of a format and
    a text."""
    texts = []
    for puzzle in puzzles:
        bare = Puzzle(puzzle.width, puzzle.height, puzzle.rows, puzzle.columns)
        for format in FORMATS:
            text = outcome(readers.written, format, puzzle)
            if text == "Ambiguous":
                continue
            for ended in (text, text.replace(b"\n", b"\r\n")):
                wanted = puzzle if format == "non" else bare
                results.compare(f"readers, {format} read again", ended, wanted, outcome(readers.read, format, ended))
                texts.append((format, ended))
    return texts


def test_with_library(results, library, made):
    """Compares the library with the readers and with the tables."""
    for name, text, wanted in HAND_MADE:
        results.compare(f"library, {name!r}", text, wanted, library.convert(name, text, "non"))
    for name, text, target, wanted in HAND_CONVERTED:
        results.compare(f"library, {name!r} to {target}", text, wanted, library.convert(name, text, target))
    for text in all_texts():
        for format in FORMATS:
            compare_with_library(results, library, format, text)
    for format, text in made:
        compare_with_library(results, library, format, text)


def test_with_program(results, program, made):
    """Compares the program with the readers and with the tables."""
    for name, text, wanted in HAND_MADE:
        results.compare(f"program, {name!r}", text, wanted, program.printed_of(name, text, "convert", "--to", "non"))
    for name, text, target, wanted in HAND_CONVERTED:
        results.compare(f"program, {name!r} to {target}", text, wanted, program.printed_of(name, text, "convert", "--to", target))
    for collection, _ in HAND_CUT:
        compare_survey(results, program, collection)
    compare_surveys(results, program, [(name, text) for name, text, _ in HAND_MADE])
    compare_surveys(results, program, [(b"%d.non" % number, text) for number, (text, _) in enumerate(HAND_GOALS)])
    compare_surveys(results, program, [(name, ONE_CELL) for name, _ in HAND_NAMES])
    given = program.printed("survey", *["a.mk"] * (MAX_ENTRIES + 1))
    results.compare("program, survey of many files", b"a.mk", "TooMany", given)
    compare_surveys(results, program, numbered(made))
    compare_surveys(results, program, numbered((format, text) for text in all_texts() for format in FORMATS))


def all_texts():
    """Yields the base texts' variants and the random texts."""
    yield from base_variants()
    yield from random_texts()


def numbered(texts):
    """Yields pairs of a name and a text for pairs of a format and a text."""
    for number, (format, text) in enumerate(texts, 1):
        yield b"%d.%s" % (number, format.encode()), text


def test(results, program, library):
    """Makes all comparisons."""
    source = random.Random(1)
    test_readers(results)
    made = test_made_puzzles(results, [made_puzzle(source) for _ in range(MADE_PUZZLES)])
    made.extend(changed_texts(list(made)))
    if library:
        test_with_library(results, library, made)
    if program:
        test_with_program(results, program, made)


if __name__ == "__main__":
    sys.exit(run_test("Compares the readers with the program and with its C library.", test))
