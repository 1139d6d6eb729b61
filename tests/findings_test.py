#!/usr/bin/env python3
"""Compares what `nonograde check` prints of collections with what `findings.py` says that it prints.

Usage: findings_test.py --program PROGRAM

The entries are, in each of the three formats, every fifth of the texts that `texts_test.py` reads, which are variants of five
texts, and random ones; 1,000 drawn puzzles of up to 6 by 6 with a goal, in `.non`, half of them with a mistake; and puzzles
with two solutions in pictures of many sizes. The puzzles are checked with several options.

Each entry counts once, and so does each last line. The last line is `N passed, M failed`, and the exit status is 1 if a
comparison failed.
"""

import sys
from itertools import islice, product

import findings
import readers
from comparing import run_test
from findings import Options
from solving_test import drawn_puzzles
from texts_test import all_texts
from traps import switch

STEP = 5
MAX_ENTRIES = 10_000
PUZZLE_OPTIONS = [
    Options(all=True),
    Options(grade="line"),
    Options(pick="most", grade="trials", all=True),
    Options(guesses=0),
    Options(guesses=3, pick="most", grade="line"),
]


def words_of(options):
    """Returns the words of a command line with these options."""
    words = ["check", "--guesses", str(options.guesses), "--pick", options.pick]
    words += ["--grade", options.grade] if options.grade else []
    return words + (["--all"] if options.all else [])


def text_entries():
    """Yields an entry for each text that is taken, in each format, but for those with a line that may be a marker line."""
    for number, (text, format) in enumerate(product(islice(all_texts(), 0, None, STEP), readers.FORMATS), 1):
        if b"\n@" not in b"\n" + text:
            yield b"%d.%s" % (number, format.encode()), text


def goal_entries():
    """Yields an entry for each drawn puzzle. Its goal is a solution or nearly one if it is found easily, and else blank."""
    for number, puzzle in enumerate(drawn_puzzles(1000)):
        report = findings.solving.report(puzzle, 50, "first")
        cells = "".join(report.solutions[-1]) if report.solutions else "." * (puzzle.width * puzzle.height)
        goal = bytearray(cells.translate(str.maketrans(".#", "01")).encode())
        if number % 3 == 0:
            goal[number % len(goal)] ^= 1
        described = readers.Puzzle(puzzle.width, puzzle.height, puzzle.rows, puzzle.columns, (), bytes(goal))
        yield b"%d.non" % number, readers.written("non", described)


def picture_entries():
    """Yields entries with two solutions that differ in four cells, at the edges of the pictures of each size."""
    for width, height in product((2, 12, 23, 24, 25, 26, 48), repeat=2):
        for x, y in product({0, min(11, width - 2), min(12, width - 2), width // 2 - 1, width - 2}, repeat=2):
            if y < height - 1:
                yield b"%dx%d.mk" % (width, height), switch(width, height, (x, y), (width - 1, height - 1))


def collections_of(entries):
    """Yields collections of the entries, each of as many as a collection may have."""
    entries = iter(entries)
    while some := list(islice(entries, MAX_ENTRIES // 2)):
        yield b"".join(b"@ %s\n%s\n" % pair for pair in some)


def compare(results, program, collection, options):
    """Compares what is printed of a collection, entry by entry."""
    entries = readers.cut(collection)
    found = [findings.entry(name, text, options) for name, text in entries]
    levels = [level for _, level in found]
    wanted = [text.encode("latin-1") for text, _ in found] + [findings.totals(levels).encode()]
    status, printed, reported = program.run(*words_of(options), text=collection)
    what = " ".join(words_of(options))
    results.compare(f"status of {what}", len(entries), (1 if "error" in levels else 0, b""), (status, reported))
    for number, text in enumerate(wanted):
        subject = entries[number] if number < len(entries) else "last line"
        results.compare(what, subject, text, printed[: len(text)])
        if not printed.startswith(text):
            return
        printed = printed[len(text) :]
    results.compare(f"{what}, below the last line", None, b"", printed)


def test(results, program, _library):
    """Makes all comparisons."""
    for collection in collections_of(text_entries()):
        compare(results, program, collection, Options(all=True))
    for entries in (goal_entries, picture_entries):
        for collection, options in product(collections_of(entries()), PUZZLE_OPTIONS):
            compare(results, program, collection, options)


if __name__ == "__main__":
    sys.exit(run_test("Compares what nonograde check prints with a second implementation.", test))
