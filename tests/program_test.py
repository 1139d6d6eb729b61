#!/usr/bin/env python3
"""Runs `nonograde` on command lines, and compares what it prints and how it ends with the tables in this file.

Usage: program_test.py [--program PROGRAM] [--library FOLDER], at least one of both

The tables were worked out by hand from `docs/formats.md` and `man/nonograde.1`, those of the hard puzzle by `solving.py`:
words that are accepted, with the effect of each option; words that are refused, and help; FILEs; reports of single puzzles;
and faults. With `--library`, the folder in which `libnonograde.so` is, the reports are compared with those of the library
too.

A run counts as one comparison, of its exit status and all bytes on standard output and standard error. The last line is
`N passed, M failed`, a line `FAILED ...` stands above it for each comparison that failed, and the exit status is 1 if one
did.
"""

import sys

from comparing import run_test

VERSION = b"0.3.0"
MAX_TEXT = 1_048_576

# Puzzles

CLUES = b"2\n2,1\n1,1\n3\n1,1\n1,1\n2\n1,1\n1,2\n2\n\ncolumns\n2,1\n2,1,3\n7\n1,3\n2,1\n"
GOAL = b'goal "01100011010010101110101001010000110010100101111000"\n'
DEMO = b'title "Demo"\nwidth 5\nheight 10\n\nrows\n' + CLUES + b"\n" + GOAL
DEMO_GRID = b".##..\n.##.#\n..#.#\n.###.\n#.#..\n#.#..\n..##.\n.#.#.\n.#.##\n##...\n"
DEMO_NIN = b"5 10\n2\n2 1\n1 1\n3\n1 1\n1 1\n2\n1 1\n1 2\n2\n2 1\n2 1 3\n7\n1 3\n2 1\n"
ONE = b"1 1\n0\n#\n0\n"
CLASH = b"1 1\n1\n#\n0\n"
TWO = b"2 2\n1\n1\n#\n1\n1\n"
FIT = b"2 4\n2\n1 1\n1\n1\n1\n1\n"
PAIR = b"2 4\n2\n1 1\n#\n1\n1\n1\n1\n"
FLAT = b"1 2\n1\n#\n1\n2\n"

# A puzzle whose second solution differs by the rule for guesses, with the solutions by `first`.
TWIN = b"8 5\n1\n1\n0\n5\n5\n0\n1\n1\n#\n1 2\n1 2\n2 1\n2\n2 1\n"
TWIN_GRID = b"#....\n.#...\n.....\n#####\n#####\n.....\n..#..\n....#\n\n"
TWIN_FIRST = TWIN_GRID + b"#....\n.#...\n.....\n#####\n#####\n.....\n....#\n..#..\n\n"
TWIN_MOST = TWIN_GRID + b".#...\n#....\n.....\n#####\n#####\n.....\n..#..\n....#\n\n"

# A puzzle that takes 3016 guesses by `first`, and 51 by `most`.
HARD = (
    b"14 14\n3\n1 1\n1 1 1\n1 1 1\n2\n1\n1\n1 1\n1 1\n1 1\n1 2 1 1\n3 1 1\n2 1 1\n1\n"
    b"2 2\n0\n1 1 1 1\n3\n2 1\n2\n1 1 1\n1 1 1\n1 1 1\n1 1 1\n2 1\n2 2\n1\n0\n"
)

# The largest puzzle, all filled, in each format.
FULL_CLUES = b"256\n" * 256
FULL = {
    "non": b"width 256\nheight 256\n\nrows\n" + FULL_CLUES + b"\ncolumns\n" + FULL_CLUES,
    "mk": b"256 256\n" + FULL_CLUES + b"#\n" + FULL_CLUES,
    "nin": b"256 256\n" + FULL_CLUES * 2,
}

# The files that the program finds. The last line of longest.mk ends with the last byte that a text may have.
FILES = {
    b"demo.non": DEMO,
    b"demo.nin": DEMO_NIN,
    b"one.mk": ONE,
    b"clash.mk": CLASH,
    b"two.mk": TWO,
    b"twin.mk": TWIN,
    b"hard.nin": HARD,
    b"fit.nin": FIT,
    b"pair.mk": PAIR,
    b"flat.mk": FLAT,
    b"full.non": FULL["non"],
    b"full.mk": FULL["mk"],
    b"full.nin": FULL["nin"],
    b"--show": ONE,
    b"longest.mk": b"1 1\n0\n" + b"\n0".rjust(MAX_TEXT - 6, b"#"),
    b"too-long.mk": b"\n" * (MAX_TEXT + 1),
    b"collection.txt": b"@ one.mk\n" + ONE,
}


def totals(entries, **counts):
    """Returns the last line of a survey of so many entries, with these counts of words and 0 for all others."""
    words = ("refused", "none", "one", "several", "unsettled", "line", "trials", "search")
    return f"entries {entries} {' '.join(f'{word} {counts.get(word, 0)}' for word in words)}\n".encode()


ONE_LINE = b"1 1x1 one line 1 1 0 absent one.mk\n"
ONE_TOTALS = totals(1, one=1, line=1)
CSV_HEADER = b"number,name,width,height,verdict,grade,line_cells,trial_cells,guesses,goal,fault,fault_line,message,title,by\n"
ONE_CSV = b"1,one.mk,1,1,one,line,1,1,0,absent,,,,,\n"
TOO_LONG_CSV = b'2,too-long.mk,,,,,,,,,TooLong,,"the text has more than 1,048,576 bytes",,\n'
ONE_JSON = (
    b'{"by":null,"catalogue":null,"columns":[[]],"copyright":null,"differing":null,"fault":null,"fault_line":null,'
    b'"goal":"absent","goal_rows":null,"grade":"line","guesses":0,"height":1,"license":null,"line_cells":1,"message":null,'
    b'"misfits":[],"name":"one.mk","number":1,"rows":[[]],"solutions":[["."]],"sums":{"columns":0,"rows":0},"title":null,'
    b'"trial_cells":1,"verdict":"one","width":1}\n'
    b'{"totals":{"entries":1,"line":1,"none":0,"one":1,"refused":0,"search":0,"several":0,"trials":0,"unsettled":0}}\n'
)
SEVERAL_TOTALS = totals(1, several=1, search=1)
UNSETTLED_TOTALS = totals(1, unsettled=1, search=1)
TWO_ONE_GUESS = b"1 2x2 unsettled search 0 0 1 absent two.mk\n"
TWO_SOLVED = b"1 2x2 several search 0 0 2 absent two.mk\n"
TWO_GRIDS = b"#.\n.#\n\n.#\n#.\n\n"
TWIN_LINE = b"1 5x8 several search 32 32 3 absent twin.mk\n"
FIT_SURVEY = (
    b"1 4x2 one trials 0 8 0 absent fit.nin\n2 1x1 one line 1 1 0 absent one.mk\n3 1x1 none line 0 0 0 absent ./clash.mk\n"
    + totals(3, none=1, one=2, line=2, trials=1)
)
HARD_BY_FIRST = b"1 14x14 several search 33 38 3016 absent hard.nin\n"
HARD_BY_MOST = b"1 14x14 several search 33 38 51 absent hard.nin\n"


def hard(guesses):
    """Returns the line of the hard puzzle, if only so many guesses are allowed."""
    return b"1 14x14 unsettled search 33 38 %d absent hard.nin\n" % guesses


# Each row has a command line, standard input, and what is printed. The exit status is 0, and standard error stays empty.
PRINTED = [
    # Surveys of standard input.
    (b"survey", b"", totals(0)),
    (b"survey", b"@ one.mk\n" + ONE, ONE_LINE + ONE_TOTALS),
    (b"survey --show --lanes 1", b"@ one.mk\n" + ONE, ONE_LINE + b".\n\n" + ONE_TOTALS),
    (b"survey --show", b"@ clash.mk\n" + CLASH, b"1 1x1 none line 0 0 0 absent clash.mk\n" + totals(1, none=1, line=1)),
    # The survey's options: the least and greatest numbers, in each place, and with `=`.
    (b"survey --lanes 1 --ring 1 --guesses 0", b"@ one.mk\n" + ONE, ONE_LINE + ONE_TOTALS),
    (b"survey --lanes 16 --ring 64 --guesses 1000000 --pick most", b"@ one.mk\n" + ONE, ONE_LINE + ONE_TOTALS),
    (b"survey --lanes=16 --ring=64 --guesses=0 --pick=most --show", b"@ one.mk\n" + ONE, ONE_LINE + b".\n\n" + ONE_TOTALS),
    (b"survey --lanes +1 --ring 01", b"@ one.mk\n" + ONE, ONE_LINE + ONE_TOTALS),
    (
        b"survey one.mk --lanes 2 fit.nin --ring 2",
        b"",
        ONE_LINE + b"2 4x2 one trials 0 8 0 absent fit.nin\n" + totals(2, one=2, line=1, trials=1),
    ),
    # The number of guesses, usually 1000.
    (b"survey hard.nin", b"", hard(1000) + UNSETTLED_TOTALS),
    (b"survey --guesses 999 hard.nin", b"", hard(999) + UNSETTLED_TOTALS),
    (b"survey --guesses 1 two.mk", b"", TWO_ONE_GUESS + UNSETTLED_TOTALS),
    (b"survey --guesses 2 two.mk", b"", TWO_SOLVED + SEVERAL_TOTALS),
    (b"survey --guesses 1000000 hard.nin", b"", HARD_BY_FIRST + SEVERAL_TOTALS),
    (b"solve --guesses 0 two.mk", b"", b"1 2x2 unsettled search 0 0 0 absent two.mk\n"),
    (b"solve --guesses 1 two.mk", b"", TWO_ONE_GUESS + b"#.\n.#\n\n"),
    (b"solve --guesses 2 two.mk", b"", TWO_SOLVED + TWO_GRIDS),
    (b"solve two.mk", b"", TWO_SOLVED + TWO_GRIDS),
    (b"solve --guesses 1000000 two.mk", b"", TWO_SOLVED + TWO_GRIDS),
    (b"solve --pick most --guesses 2 two.mk", b"", TWO_SOLVED + TWO_GRIDS),
    (b"solve hard.nin", b"", hard(1000)),
    (b"solve --guesses 1001 hard.nin", b"", hard(1001)),
    # The format, usually `text`.
    (b"survey --format text one.mk", b"", ONE_LINE + ONE_TOTALS),
    (b"survey --show --format=text one.mk", b"", ONE_LINE + b".\n\n" + ONE_TOTALS),
    (b"survey --format csv", b"", CSV_HEADER),
    (b"survey --format csv one.mk too-long.mk", b"", CSV_HEADER + ONE_CSV + TOO_LONG_CSV),
    (b"survey --format=json one.mk", b"", ONE_JSON),
    # The rule for guesses, usually `first`.
    (b"survey --show twin.mk", b"", TWIN_LINE + TWIN_FIRST + SEVERAL_TOTALS),
    (b"survey --pick first --show twin.mk", b"", TWIN_LINE + TWIN_FIRST + SEVERAL_TOTALS),
    (b"survey --pick most --show twin.mk", b"", TWIN_LINE + TWIN_MOST + SEVERAL_TOTALS),
    (b"survey --pick most hard.nin", b"", HARD_BY_MOST + SEVERAL_TOTALS),
    (b"solve twin.mk", b"", TWIN_LINE + TWIN_FIRST),
    (b"solve --pick first twin.mk", b"", TWIN_LINE + TWIN_FIRST),
    (b"solve twin.mk --pick most", b"", TWIN_LINE + TWIN_MOST),
    # FILEs are entries in order, named by their words. If one is named, standard input isn't read.
    (b"survey fit.nin --lanes 2 one.mk ./clash.mk", b"@ two.mk\n" + TWO, FIT_SURVEY),
    (b"survey one.mk one.mk", b"", ONE_LINE + b"2 1x1 one line 1 1 0 absent one.mk\n" + totals(2, one=2, line=2)),
    (
        b"survey one.mk collection.txt demo.non too-long.mk",
        b"",
        ONE_LINE
        + b"2 refused UnknownFormat collection.txt\n3 5x10 one line 50 50 0 meets demo.non\n4 refused TooLong too-long.mk\n"
        + totals(4, refused=2, one=2, line=2),
    ),
    (b"survey -- one.mk", b"", ONE_LINE + ONE_TOTALS),
    (b"survey -- --show", b"", b"1 refused UnknownFormat --show\n" + totals(1, refused=1)),
    (b"lines one.mk", b"", b"one 1\n.\n"),
    (b"lines one.mk --", b"", b"one 1\n.\n"),
    (b"lines demo.nin", b"", b"one 50\n" + DEMO_GRID),
    (b"lines longest.mk", b"", b"one 1\n.\n"),
    (b"solve one.mk", b"", ONE_LINE + b".\n\n"),
    (b"solve demo.non", b"", b"1 5x10 one line 50 50 0 meets demo.non\n" + DEMO_GRID + b"\n"),
    (b"convert --to mk fit.nin", b"", PAIR),
    (b"convert --to nin demo.non", b"", DEMO_NIN),
    (b"convert demo.non --to=non", b"", DEMO),
    (b"convert --to mk pair.mk", b"", PAIR),
    (b"convert --to mk full.non", b"", FULL["mk"]),
    (b"convert --to nin full.mk", b"", FULL["nin"]),
    (b"convert --to non full.nin", b"", FULL["non"]),
    # The version.
    (b"--version", b"", b"nonograde " + VERSION + b"\n"),
    (b"-V", b"", b"nonograde " + VERSION + b"\n"),
]

# Each row has a command line that asks for progress, standard input, what is printed, and the progress line as it was
# written last. The exit status is 0. tools/outside.sh tests how often the line is written.
PROGRESS = [
    (b"survey --progress", b"@ one.mk\n" + ONE, ONE_LINE + ONE_TOTALS, b"\r1 of 1 entries graded, 0 refused\n"),
    (
        b"survey --show two.mk --guesses 2 --progress one.mk",
        b"",
        TWO_SOLVED
        + TWO_GRIDS
        + b"2 1x1 one line 1 1 0 absent one.mk\n.\n\n"
        + totals(2, one=1, several=1, line=1, search=1),
        b"\r2 of 2 files graded, 0 refused\n",
    ),
    (
        b"check --progress one.mk --all",
        b"",
        b"one.mk: one solution, by line logic (1 cell)\n1 file: 1 with one solution, 0 errors, 0 warnings\n",
        b"\r1 of 1 files graded, 0 refused\n",
    ),
    (b"survey --progress", b"", totals(0), b""),
    (b"survey --progress", b"@ a.txt\n", b"1 refused UnknownFormat a.txt\n" + totals(1, refused=1), b""),
]

# Faults

# Each row has a name, a text, and the word of its fault, which is the same by each command and each call.
FAULTY = [
    (b"a.nin", b"", "NoSize"),
    (b"a.mk", b"0 1\n1\n#\n1\n", "BadSize"),
    (b"a.mk", b"1 1\n1\n1\n", "NoSection"),
    (b"a.non", b"width 1\n1\nheight 1\nrows\n1\ncolumns\n1\n", "BadLine:2"),
    (b"a.non", b"width 1\nwidth 1\nheight 1\nrows\n1\ncolumns\n1\n", "Twice:2"),
    (b"a.mk", b"1 1\n1\n#\n", "BadCount"),
    (b"a.nin", b"1 1\n1\n1 0\n", "BadNumber:3"),
    (b"a.mk", b"1 1\n0 1\n#\n1\n", "BadNumber:2"),
    (b"bad.mk", b"2 2\n2 x\n1\n#\n1\n1\n", "BadNumber:2"),
    (b"far.nin", b"1 1\n1\n" + b"\n" * 997 + b"x\n", "BadNumber:1000"),
    (b"a.non", b"width 1\nheight 1\nrows\n1\ncolumns\n1\ngoal 2\n", "BadGoal:7"),
    (b"a.txt", b"", "UnknownFormat"),
    (b"what.txt", ONE, "UnknownFormat"),
    (b"nin", FIT, "UnknownFormat"),
    (b"a.non", b"\n" * (MAX_TEXT + 1), "TooLong"),
    (b"a.mk", b"\n" * (MAX_TEXT + 1), "TooLong"),
    (b"a.nin", b"\n" * (MAX_TEXT + 1), "TooLong"),
    (b"a", b"\n" * (MAX_TEXT + 1), "UnknownFormat"),
]

# Each row has a command line, standard input, and the word of the fault at which the program stops: it prints just the word
# on standard error and ends with exit status 1.
STOPPED = [
    (b"survey", b"x\n", "Stray:1"),
    (b"survey", b"\n" * 99_999 + b"x", "Stray:100000"),
    (b"survey", b"@ a.mk\n" * 10_001, "TooMany"),
    (b"check", b"x\n", "Stray:1"),
    (b"check --strict", b"@ a.mk\n" * 10_001, "TooMany"),
    (b"check " + b"one.mk " * 10_001, b"", "TooMany"),
    (b"convert --to nin flat.mk", b"", "Ambiguous"),
    (b"lines nowhere.mk", b"", "Read"),
    (b"solve nowhere.mk", b"", "Read"),
    (b"convert --to mk nowhere.mk", b"", "Read"),
    (b"survey one.mk nowhere.mk", b"", "Read"),
    (b"lines nowhere", b"", "Read"),
    (b"lines -- --none.mk", b"", "Read"),
]

# Words

# Each row has a command line with a word that isn't text in UTF-8, and that word as the line names it.
UNREAD = [
    (b"\xff", b"?"),
    (b"lines \xff.non", b"?.non"),
    (b"lines one.mk \x80", b"?"),
    (b"--help \xc3", b"?"),
    (b"solve \xffcaf\xc3\xa9\xc3.mk nowhere.mk \x80", b"?caf\xc3\xa9?.mk"),
    (b"survey \xe2\x82 --lanes=\xed\xa0\x80", b"??"),
    (b"survey --lanes=\xed\xa0\x80", b"--lanes=???"),
    (b"lines " + 130_000 * b"a" + b"\xfe", 130_000 * b"a" + b"?"),
]
FILE_MISSING = "the following required arguments were not provided:\n  <FILE>"
LINES_USAGE, SOLVE_USAGE = "nonograde lines <FILE>", "nonograde solve [OPTIONS] <FILE>"
SURVEY_USAGE, CONVERT_USAGE = "nonograde survey [OPTIONS] [FILE]...", "nonograde convert --to <FORMAT> <FILE>"
CHECK_USAGE = "nonograde check [OPTIONS] [FILE]..."
USAGE = "nonograde <COMMAND>"

# Each row has a command line that is refused, what is wrong with it, and the usage that follows, if one does. The exit
# status is 2, and standard output stays empty.
REFUSED = [
    ("lines", FILE_MISSING, LINES_USAGE),
    ("lines --", FILE_MISSING, LINES_USAGE),
    ("solve", FILE_MISSING, SOLVE_USAGE),
    ("convert --to mk", FILE_MISSING, CONVERT_USAGE),
    ("convert one.mk", "the following required arguments were not provided:\n  --to <FORMAT>", CONVERT_USAGE),
    ("lines one.mk two.mk", "unexpected argument 'two.mk' found", LINES_USAGE),
    ("solve one.mk two.mk", "unexpected argument 'two.mk' found", SOLVE_USAGE),
    ("convert --to mk one.mk two.mk", "unexpected argument 'two.mk' found", CONVERT_USAGE),
    ("survey --lanes 17", "invalid value '17' for '--lanes <N>': 17 is not in 1..=16", None),
    ("survey --lanes 0", "invalid value '0' for '--lanes <N>': 0 is not in 1..=16", None),
    ("survey --lanes 65537", "invalid value '65537' for '--lanes <N>': 65537 is not in 1..=16", None),
    ("survey --lanes 1.5", "invalid value '1.5' for '--lanes <N>': invalid digit found in string", None),
    ("survey --lanes=", "invalid value '' for '--lanes <N>': cannot parse integer from empty string", None),
    ("survey --lanes", "a value is required for '--lanes <N>' but none was supplied", None),
    ("survey --lanes 1 --lanes 1", "the argument '--lanes <N>' cannot be used multiple times", SURVEY_USAGE),
    ("survey --ring 65", "invalid value '65' for '--ring <N>': 65 is not in 1..=64", None),
    ("survey --ring 0", "invalid value '0' for '--ring <N>': 0 is not in 1..=64", None),
    ("survey --guesses 1000001", "invalid value '1000001' for '--guesses <N>': 1000001 is not in 0..=1000000", None),
    ("survey --guesses=-1", "invalid value '-1' for '--guesses <N>': -1 is not in 0..=1000000", None),
    ("solve --guesses 1000001 one.mk", "invalid value '1000001' for '--guesses <N>': 1000001 is not in 0..=1000000", None),
    ("survey --pick last", "invalid value 'last' for '--pick <RULE>'\n  [possible values: first, most]", None),
    (
        "survey --format xml",
        "invalid value 'xml' for '--format <FORMAT>'\n  [possible values: text, csv, json, html]"
        "\n\n  tip: a similar value exists: 'html'",
        None,
    ),
    ("survey --show --format csv", "--show goes with --format text alone", USAGE),
    ("survey --format csv --format csv", "the argument '--format <FORMAT>' cannot be used multiple times", SURVEY_USAGE),
    ("check --grade search", "invalid value 'search' for '--grade <GRADE>'\n  [possible values: line, trials]", None),
    ("check --grade line --grade line", "the argument '--grade <GRADE>' cannot be used multiple times", CHECK_USAGE),
    ("check --lanes 17 one.mk", "invalid value '17' for '--lanes <N>': 17 is not in 1..=16", None),
    ("check --strict=1", "unexpected value '1' for '--strict' found; no more were expected", CHECK_USAGE),
    (
        "check --show",
        "unexpected argument '--show' found\n\n  tip: to pass '--show' as a value, use '-- --show'",
        CHECK_USAGE,
    ),
    ("solve --pick last one.mk", "invalid value 'last' for '--pick <RULE>'\n  [possible values: first, most]", None),
    ("convert --to txt one.mk", "invalid value 'txt' for '--to <FORMAT>'\n  [possible values: non, mk, nin]", None),
    ("convert --to MK one.mk", "invalid value 'MK' for '--to <FORMAT>'\n  [possible values: non, mk, nin]", None),
    ("survey --show --show", "the argument '--show' cannot be used multiple times", SURVEY_USAGE),
    ("survey --progress=1", "unexpected value '1' for '--progress' found; no more were expected", SURVEY_USAGE),
    (
        "solve --show one.mk",
        "unexpected argument '--show' found\n\n  tip: to pass '--show' as a value, use '-- --show'",
        SOLVE_USAGE,
    ),
    (
        "lines --guesses 1 one.mk",
        "unexpected argument '--guesses' found\n\n  tip: to pass '--guesses' as a value, use '-- --guesses'",
        LINES_USAGE,
    ),
    ("lnes one.mk", "unrecognized subcommand 'lnes'\n\n  tip: a similar subcommand exists: 'lines'", USAGE),
    ("help all", "unrecognized subcommand 'all'", USAGE),
]

HELP = b"""Solves and grades nonograms

Usage: nonograde <COMMAND>

Commands:
  survey   Grade the puzzles of a collection
  check    Find what is wrong with puzzles, and where
  solve    Solve a puzzle
  convert  Write a puzzle in another format
  lines    Close a puzzle by line logic
  help     Print this message or the help of the given subcommand(s)

Options:
  -h, --help     Print help
  -V, --version  Print version
"""
LINES_HELP = b"""Close a puzzle by line logic

Usage: nonograde lines <FILE>

Arguments:
  <FILE>  A puzzle: its name ends in .non, .mk or .nin

Options:
  -h, --help  Print help

Prints one, open or none, the number of known cells, and the grid.

Example: nonograde lines puzzles/heart.non

Exit status: 0 if the grid was printed, 1 at a fault, 2 if the command line is refused.
"""

# Each row has a command line, and the help that is printed. The exit status is 0, and standard error stays empty.
WHOLE_HELP = [
    (b"--help", HELP),
    (b"-h", HELP),
    (b"help", HELP),
    (b"--help --none", HELP),
    (b"lines --help", LINES_HELP),
    (b"lines one.mk -h", LINES_HELP),
    (b"help lines", LINES_HELP),
]

# Each row has a command line, and lines of the help that is printed: the first one, the usage, an example and the last one.
# tools/pages_test.sh compares the options with the man page.
HELP_LINES = [
    (
        b"survey --help",
        b"Grade the puzzles of a collection",
        b"Usage: nonograde survey [OPTIONS] [FILE]...",
        b"Example: nonograde survey --lanes 8 --show puzzles/heart.non puzzles/cat.mk",
        b"Exit status: 0 if the survey was printed, 1 at a fault, 2 if the command line is refused.",
    ),
    (
        b"check --help",
        b"Find what is wrong with puzzles, and where",
        b"Usage: nonograde check [OPTIONS] [FILE]...",
        b"Example: nonograde check --grade line puzzles/heart.non puzzles/cat.mk",
        b"Exit status: 0 without an error, 1 with one (or at a fault, whose line is on standard error), "
        b"2 if the command line is refused.",
    ),
    (
        b"solve --help",
        b"Solve a puzzle",
        b"Usage: nonograde solve [OPTIONS] <FILE>",
        b"Example: nonograde solve puzzles/heart.non",
        b"Exit status: 0 if the line was printed, 1 at a fault, 2 if the command line is refused.",
    ),
    (
        b"convert --help",
        b"Write a puzzle in another format",
        b"Usage: nonograde convert --to <FORMAT> <FILE>",
        b"Example: nonograde convert --to mk puzzles/heart.non",
        b"Exit status: 0 if the text was printed, 1 at a fault, 2 if the command line is refused.",
    ),
]

# Reports of single puzzles, by the program and the library

# Each row has a name, a text, and what `lines` prints.
CLOSED = [
    (b"one.mk", ONE, b"one 1\n.\n"),
    (b"clash.nin", b"1 1\n1\n0\n", b"none 0\n"),
    (b"two.nin", b"2 2\n1\n1\n1\n1\n", b"open 0\n??\n??\n"),
    (b"demo.non", DEMO, b"one 50\n" + DEMO_GRID),
]

# Each row has a limit on guesses, a rule, a name, a text, and what `solve` prints.
SOLVED = [
    (0, "first", b"clash.mk", CLASH, b"1 1x1 none line 0 0 0 absent clash.mk\n"),
    (1000, "first", b"fit.nin", FIT, b"1 4x2 one trials 0 8 0 absent fit.nin\n.##.\n#..#\n\n"),
    (1, "first", b"two.mk", TWO, TWO_ONE_GUESS + b"#.\n.#\n\n"),
    (2, "first", b"two.mk", TWO, TWO_SOLVED + TWO_GRIDS),
    (1000, "first", b"twin.mk", TWIN, TWIN_LINE + TWIN_FIRST),
    (1000, "most", b"twin.mk", TWIN, TWIN_LINE + TWIN_MOST),
    (1000, "first", b"a\x1f b\n\x7f~.mk", ONE, b"1 1x1 one line 1 1 0 absent a? b??~.mk\n.\n\n"),
    (1000, "first", b"demo.non", DEMO, b"1 5x10 one line 50 50 0 meets demo.non\n" + DEMO_GRID + b"\n"),
]

# Each row has a name, a text, a format, and what `convert` prints.
CONVERTED = [
    (b"fit.nin", FIT, "non", b"width 4\nheight 2\n\nrows\n2\n1,1\n\ncolumns\n1\n1\n1\n1\n"),
    (b"fit.nin", FIT, "mk", PAIR),
    (b"fit.nin", FIT, "nin", b"4 2\n2\n1 1\n1\n1\n1\n1\n"),
    (b"demo.non", DEMO, "non", DEMO),
    (b"demo.non", DEMO, "nin", DEMO_NIN),
    (b"full.non", FULL["non"], "mk", FULL["mk"]),
    (b"full.mk", FULL["mk"], "nin", FULL["nin"]),
    (b"full.nin", FULL["nin"], "non", FULL["non"]),
]


# Comparisons


class Runs:
    """Runs of the program in a folder with the files of FILES."""

    def __init__(self, results, program):
        self._results, self._program = results, program
        for name, text in FILES.items():
            program.write(name, text)

    def compare(self, line, text, *wanted):
        """Compares how the program ends for the words of a command line, and what it prints, with `text` on standard input."""
        self._results.compare("run", line[:100], wanted, self._program.run(*line.split(), text=text))

    def compare_on(self, name, text, words, *wanted):
        """Compares the same for these words and a file of this name and text, which it overwrites."""
        self._program.write(name, text)
        given = self._program.run(*words, name)
        self._results.compare(f"{' '.join(words)} {name[:100]} with", text[:50], wanted, given)
        self._program.write(name, FILES.get(name, b""))

    def compare_tables(self):
        """Compares the tables of command lines."""
        for line, text, printed in PRINTED:
            self.compare(line, text, 0, printed, b"")
        for line, text, printed, progress in PROGRESS:
            status, given, reported = self._program.run(*line.split(), text=text)
            reported = reported[max(reported.rfind(b"\r"), 0) :]
            self._results.compare("run", line, (0, printed, progress), (status, given, reported))
        for line, text, word in STOPPED:
            self.compare(line, text, 1, b"", f"nonograde: {word}\n".encode())
        for line, wrong, usage in REFUSED:
            usage = f"Usage: {usage}\n\n" if usage else ""
            reported = f"error: {wrong}\n\n{usage}For more information, try '--help'.\n"
            self.compare(line.encode(), b"", 2, b"", reported.encode())
        for line in (b"", b"--"):
            self.compare(line, b"", 2, b"", HELP)
        for line, word in UNREAD:
            self.compare(line, b"", 2, b"", b"error: '" + word + b"' isn't text in UTF-8\n")
        for line, text in WHOLE_HELP:
            self.compare(line, b"", 0, text, b"")
        for line, *wanted in HELP_LINES:
            status, printed, reported = self._program.run(*line.split())
            lines = printed.split(b"\n")
            given = [lines[0], *(text for text in lines[1:-2] if text in wanted), *lines[-2:]]
            self._results.compare("run", line, (0, [*wanted, b""], b""), (status, given, reported))

    def compare_reports(self):
        """Compares the tables of reports and of faulty texts."""
        for name, text, wanted in CLOSED:
            self.compare_on(name, text, ["lines"], 0, wanted, b"")
        for guesses, pick, name, text, wanted in SOLVED:
            self.compare_on(name, text, ["solve", "--guesses", str(guesses), "--pick", pick], 0, wanted, b"")
        for name, text, format, wanted in CONVERTED:
            self.compare_on(name, text, ["convert", "--to", format], 0, wanted, b"")
        for name, text, word in FAULTY:
            for words in (["lines"], ["solve"], ["convert", "--to", "non"]):
                self.compare_on(name, text, words, 1, b"", f"nonograde: {word}\n".encode())
            entry = f"1 refused {word} {name.decode()}\n".encode()
            self.compare_on(name, text, ["survey"], 0, entry + totals(1, refused=1), b"")


def compare_calls(results, library):
    """Compares the calls of the library with the tables of reports and of faulty texts."""
    results.compare("version by the library", None, VERSION, library.version())
    for name, text, wanted in CLOSED:
        results.compare("lines by the library of", text, wanted, library.lines(name, text))
    for guesses, pick, name, text, wanted in SOLVED:
        results.compare("solve by the library of", text, wanted, library.solve(name, text, guesses, pick))
    for name, text, format, wanted in CONVERTED:
        results.compare("convert by the library of", text, wanted, library.convert(name, text, format))
    results.compare("convert by the library of", FLAT, "Ambiguous", library.convert(b"flat.mk", FLAT, "nin"))
    for name, text, word in FAULTY:
        given = [library.lines(name, text), library.solve(name, text, 1000, "first"), library.convert(name, text, "non")]
        results.compare("three calls of the library of", text, [word] * 3, given)


def test(results, program, library):
    """Makes all comparisons."""
    if program:
        runs = Runs(results, program)
        runs.compare_tables()
        runs.compare_reports()
    if library:
        compare_calls(results, library)


if __name__ == "__main__":
    sys.exit(run_test("Compares runs of nonograde with tables.", test))
