#!/usr/bin/env python3
"""Makes a folder of puzzle files, most of them with one mistake of the kind that reaches a puzzle editor.

Usage: traps.py FOLDER

The folder must not exist. `traps.expected` has what `nonograde check` prints of these files, and `traps_test.py` compares
the two. Most files are variants of one picture, a boat:

    ..#..
    ..##.
    #####
    .###.
"""

import os
import sys

# Texts


def non(rows, columns, goal=None, title=None):
    """Returns a text in `.non` with these clues, a list for each axis, and with the rows of the goal if one is given.

    >>> print(non(["1"], ["1"], ["1"]).decode(), end="")
    width 1
    height 1
    <BLANKLINE>
    rows
    1
    <BLANKLINE>
    columns
    1
    <BLANKLINE>
    goal "1"
    """
    lines = [f'title "{title}"'] if title else []
    lines += [f"width {len(columns)}", f"height {len(rows)}", "", "rows", *rows, "", "columns", *columns]
    if goal is not None:
        lines += ["", f'goal "{"".join(goal)}"']
    return "".join(line + "\n" for line in lines).encode()


def mk(rows, columns):
    """Returns a text in `.mk` with these clues."""
    return "".join(line + "\n" for line in [f"{len(rows)} {len(columns)}", *rows, "#", *columns]).encode()


def nin(rows, columns):
    """Returns a text in `.nin` with these clues."""
    return "".join(line + "\n" for line in [f"{len(columns)} {len(rows)}", *rows, *columns]).encode()


def changed(text, *changes):
    """Returns a text with changes, each a pair of what stands in it just once and what is written in its place."""
    for old, new in changes:
        if text.count(old) != 1:
            raise ValueError(f"{old!r} stands {text.count(old)} times in {text!r}")
        text = text.replace(old, new)
    return text


def switch(width, height, first, second):
    """Returns a text in `.mk` of a puzzle that is blank but for one filled cell in each of two rows and of two columns, so
    that it has two solutions. The arguments are its sizes, and the cells (x, y) that are filled in its first solution.
    """
    rows, columns = ["0"] * height, ["0"] * width
    for x, y in (first, second):
        columns[x] = rows[y] = "1"
    return mk(rows, columns)


def crowd(count):
    """Returns a text in `.mk` of a puzzle that a search refutes. Two full columns divide it: to their left one row more than
    there are columns has a filled cell, which line logic and trials don't see if there are three columns or more.
    """
    rows = ["1 2"] * (count + 1) + ["2 1"] * count
    full = str(len(rows))
    return mk(rows, ["1"] * count + ["0", full, full, "0"] + ["1"] * (count + 1))


ROWS, COLUMNS = ["1", "2", "5", "3"], ["1", "2", "4", "3", "1"]
GOAL = ["00100", "00110", "11111", "01110"]
BOAT, BOAT_MK, BOAT_NIN = non(ROWS, COLUMNS, GOAL, "Boat"), mk(ROWS, COLUMNS), nin(ROWS, COLUMNS)
PLAIN = non(ROWS, COLUMNS)
MARK = b"\xef\xbb\xbf"

# A puzzle of 5 by 10. If its size line says 5 rows, the clue of its first column stands where a second puzzle would begin.
LEAF = (["2", "2 1", "1 1", "3", "1 1", "1 1", "2", "1 1", "1 2", "2"], ["2 1", "2 1 3", "7", "1 3", "2 1"])

# A puzzle of 7 by 7 with one solution, which takes 36 guesses.
SEARCH = (["1 1", "2 1", "1 2", "2 1", "1 1 1", "1 1 1", "1 1"], ["2", "2 1", "1 1 1", "2 1", "1 1 1", "1 2", "2"])
SEARCHED = ["0000101", "0011001", "0101100", "1100010", "1010100", "0101010", "0010010"]

# Files

FILES = {
    # What is as it should be.
    "boat.non": BOAT,
    "boat.mk": BOAT_MK,
    "boat.nin": BOAT_NIN,
    "BOAT.NON": BOAT,
    "crlf.non": BOAT.replace(b"\n", b"\r\n"),
    "crlf.mk": BOAT_MK.replace(b"\n", b"\r\n"),
    "tabs.mk": b"\t4\t5 \n 1\n\t2\n5\t\n 3 \n#\trows above\n1\n2\n4\n3\n1\n\n\n",
    "exchanged.mk": changed(BOAT_MK, (b"4 5\n", b"5 4\n")),
    "exchanged.nin": changed(BOAT_NIN, (b"5 4\n", b"4 5\n")),
    "commas.nin": b"5,4\n1\n2,\n5\n3\n1\n2\n4\n3\n1",
    "two words.non": BOAT,
    "odd\x01\x1f\x7fname.non": BOAT,
    "tab\tname.mk": b"4\n",
    "b\u00e9b\u00e9.non": BOAT,
    "trials.mk": mk(["2", "1 1"], ["1"] * 4),
    "search.non": non(*SEARCH, SEARCHED),
    "nothing.mk": mk(["0"] * 3, ["0"] * 4),
    # Names without a known ending.
    "notes.txt": BOAT,
    "boat.non.bak": BOAT,
    "boat": BOAT,
    "non": BOAT,
    # Forms of a text.
    "mark.non": MARK + BOAT,
    "mark.mk": MARK + BOAT_MK,
    "mark.nin": MARK + BOAT_NIN,
    "wide.non": b"\xff\xfe" + BOAT.decode().encode("utf-16-le"),
    "wide.mk": b"\xfe\xff" + BOAT_MK.decode().encode("utf-16-be"),
    "wide.nin": b"\xff\xfe" + BOAT_NIN.decode().encode("utf-16-le"),
    "old.non": BOAT.replace(b"\n", b"\r"),
    "old.mk": BOAT_MK.replace(b"\n", b"\r"),
    "old.nin": BOAT_NIN.replace(b"\n", b"\r"),
    "widht.non": changed(BOAT, (b"width", b"widht")),
    "heigth.non": changed(BOAT, (b"height", b"Heigth")),
    "row.non": changed(BOAT, (b"rows", b"row")),
    "collumns.non": changed(BOAT, (b"columns", b"collumns")),
    "cows.non": changed(BOAT, (b"rows", b"cows"), (b"columns", b"colums")),
    "two.non": BOAT + b"\n" + changed(BOAT, (b"Boat", b"Boat again")),
    "two.mk": BOAT_MK + b"\n" + BOAT_MK,
    "two.nin": BOAT_NIN + BOAT_NIN,
    "three.mk": BOAT_MK * 3,
    # Faults of a text.
    "empty.non": b"",
    "empty.mk": b"",
    "empty.nin": b"",
    "blank.non": b"\n\n",
    "blank.mk": b" \n\t\n \n",
    "blank.nin": b"\r\n\r\n",
    "long.non": BOAT + b"\n" * 1_048_576,
    "long.mk": BOAT_MK + b"\n" * (1_048_577 - len(BOAT_MK)),
    "full.nin": BOAT_NIN + b"\n" * (1_048_576 - len(BOAT_NIN)),
    "long.nin": BOAT_NIN + b"#" * 1_048_576,
    "unsized.non": changed(BOAT, (b"height 4\n", b"")),
    "size.non": changed(BOAT, (b"width 5\nheight 4\n", b"size 5 4\n")),
    "one-size.mk": changed(BOAT_MK, (b"4 5\n", b"45\n")),
    "three-sizes.nin": changed(BOAT_NIN, (b"5 4\n", b"5 4 20\n")),
    "big.non": changed(BOAT, (b"width 5\n", b"width 257\n")),
    "unit.non": changed(BOAT, (b"height 4\n", b"height 4 cells\n")),
    "zero.mk": changed(BOAT_MK, (b"4 5\n", b"0 5\n")),
    "comment.mk": b"# boat\n" + BOAT_MK,
    "negative.nin": changed(BOAT_NIN, (b"5 4\n", b"5 -4\n")),
    "no-columns.non": changed(BOAT, (b"\ncolumns\n", b"\n")),
    "no-hash.mk": changed(BOAT_MK, (b"#\n", b"")),
    "stray.non": changed(BOAT, (b"height 4\n", b"height 4\n(by a friend)\n")),
    "stray-long.non": changed(BOAT, (b"height 4\n", b"height 4\n\xe2\x80\x9c" + b"A picture of a boat at sea, " * 4 + b"\n")),
    "stray-60.non": b"\t" + b"-" * 60 + b" \n" + BOAT,
    "stray-61.non": b"-" * 61 + b"\n" + BOAT,
    "title.non": changed(BOAT, (b'"Boat"', b'"' + b"Boat " * 13_108 + b'"')),
    "twice.non": changed(BOAT, (b"width 5\n", b"width 5\nWidth: 5\n")),
    "rows-twice.non": changed(BOAT, (b"\ncolumns\n", b"\nrows\n")) + b"\ncolumns\n",
    "short.non": changed(BOAT, (b"\n5\n3\n", b"\n5\n")),
    "joined.non": changed(BOAT, (b"4\n3\n1\n", b"4 3 1\n")),
    "extra.mk": BOAT_MK + b"(solved)\n",
    "short.mk": changed(BOAT_MK, (b"2\n5\n", b"5\n")),
    "short.nin": changed(BOAT_NIN, (b"2\n5\n", b"5\n")),
    "gap.nin": changed(BOAT_NIN, (b"5\n3\n", b"5\n\n\n3\n"), (b"4\n3\n1\n", b"4\n3\n")),
    "extra.nin": BOAT_NIN + b"1 1\n",
    "low.nin": changed(nin(*LEAF), (b"5 10\n", b"5 5\n")),
    "goal.nin": BOAT_NIN + b'goal "' + "".join(GOAL).encode() + b'"\n',
    "colours.non": changed(BOAT, (b"\n5\n", b"\n3r 2b\n")),
    "great.mk": changed(BOAT_MK, (b"\n4\n", b"\n257\n")),
    "zeros.nin": changed(BOAT_NIN, (b"\n4\n", b"\n0 4\n")),
    "dash.nin": changed(BOAT_NIN, (b"\n5\n", b"\n2\xe2\x80\x932\n")),
    "runs.mk": changed(BOAT_MK, (b"\n5\n", b"\n" + b"1 " * 129 + b"\n")),
    "goal-short.non": changed(BOAT, (b'goal "0', b'goal "')),
    "goal-long.non": changed(BOAT, (b'goal "0', b'goal "0\t0')),
    "goal-lines.non": changed(BOAT, ("".join(GOAL).encode(), "\n".join(GOAL).encode())),
    "goal-drawn.non": changed(BOAT, ("".join(GOAL).encode(), "".join(GOAL).replace("0", ".").replace("1", "#").encode())),
    "goal-empty.non": changed(BOAT, ("".join(GOAL).encode(), b"")),
    "goal-x.non": changed(BOAT, ("".join(GOAL).encode(), "".join(GOAL).replace("0", "?", 1).encode())),
    # Puzzles without a solution.
    "row-long.non": non(["1", "2", "5 1", "3"], ["1", "2", "4", "3", "2"]),
    "column-long.mk": mk(["1", "2", "5", "3", "0"], ["1", "2", "4 1", "3", "0"]),
    "misfits.nin": nin(["1", "2 3", "5", "3"], ["1", "2", "2 2", "5", "1"]),
    "misfits.mk": mk(["6", "2", "5", "1 3 1"], ["1", "2", "5", "3", "1 1 1"]),
    "many-runs.mk": mk(["0", "1 " * 31], ["1"] * 15 + ["0"] * 15),
    "sums.non": non(["1", "2", "5", "2"], COLUMNS),
    "sums.mk": mk(ROWS, ["1", "2", "4", "4", "1"]),
    "sums.nin": nin(["0", "2", "5", "3"], COLUMNS),
    "no-row.mk": mk(["2", "1", "5", "3"], COLUMNS),
    "no-row.non": non(ROWS, ["2", "1", "4", "3", "1"]),
    "no-column.nin": nin(ROWS, ["1", "2", "1", "3", "4"]),
    "clash.mk": mk(ROWS, ["0", "2", "4", "4", "1"]),
    "later-clash.nin": nin(["1", "1 2", "5", "3"], ["1", "2", "4", "3", "2"]),
    "trials-none.mk": mk(["1 1 1", "3"], ["1"] * 6),
    "search-none.mk": crowd(3),
    # Puzzles with several solutions.
    "several.mk": mk(["1", "1"], ["1", "1"]),
    "several.non": non(["2", "2 2", "2", "1", "1"], ["2", "2", "0", "2", "2", "1", "1"]),
    "several-goal.non": non(["1", "1"], ["1", "1"], ["01", "10"]),
    "several-inverted.non": non(["1", "1", "0"], ["1", "1"], ["01", "10", "11"]),
    "switches.non": non(["1", "1", "0", "5", "5", "0", "1", "1"], ["1 2", "1 2", "2 1", "2", "2 1"]),
    "at-24.mk": switch(24, 3, (2, 0), (20, 2)),
    "at-25.mk": switch(25, 3, (2, 0), (20, 2)),
    "left.mk": switch(60, 4, (11, 0), (20, 3)),
    "middle.mk": switch(60, 4, (30, 1), (34, 2)),
    "right.mk": switch(60, 4, (55, 0), (58, 3)),
    "tall.mk": switch(3, 40, (0, 20), (2, 38)),
    "large.mk": switch(31, 30, (13, 14), (29, 28)),
    # Puzzles that take many guesses.
    "crowd-6.mk": crowd(6),
    # Neither line logic nor trials refute it, so without guesses only its sums do.
    "uneven.mk": mk(["1"] * 5, ["1"] * 4 + ["2"]),
    "threes.mk": mk(["1"] * 3, ["1"] * 3),
    "threes-goal.non": non(["1"] * 3, ["1"] * 3, ["110", "001", "000"]),
    # Goals that are not the solution.
    "goal-row.non": changed(BOAT, (b"00110", b"01100")),
    "goal-rows-3.non": changed(BOAT, ("".join(GOAL).encode(), b"00100" b"01100" b"11110" b"11110")),
    "goal-inverted.non": non(["4"] * 25, ["25"] * 4, ["0000"] * 25),
    "goal-search.non": non(*SEARCH, [SEARCHED[0], "0011010", *SEARCHED[2:]]),
}
FOLDERS = ["inbox", "folder.non"]
LINKS = {"link.non": "boat.non", "dangling.non": "nowhere.non", "loop.mk": "loop.mk"}
LOCKED = "locked.non"  # may not be read


def write_traps(folder):
    """Makes the folder with all files."""
    os.mkdir(folder)
    for name, text in {**FILES, LOCKED: BOAT}.items():
        with open(os.path.join(folder, name), "xb") as file:
            file.write(text)
    os.chmod(os.path.join(folder, LOCKED), 0)
    for name in FOLDERS:
        os.mkdir(os.path.join(folder, name))
    for name, target in LINKS.items():
        os.symlink(target, os.path.join(folder, name))


if __name__ == "__main__":
    if len(sys.argv) != 2 or sys.argv[1].startswith("-"):
        sys.exit(__doc__.split("\n\n")[1])
    write_traps(sys.argv[1])
