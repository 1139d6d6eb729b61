#!/usr/bin/env python3
"""Compares what `nonograde` and its C library print with what `solving.py` says that they print.

Usage: solving_test.py [--program PROGRAM] [--library FOLDER]

At least one of both is needed: the program, or the folder in which `libnonograde.so` is. The puzzles are

- examples whose reports were worked out by hand from `docs/solving.md`,
- 2,000 drawn puzzles of up to 6 by 6, half of them with a mistake, and 100 more of 4 by 4,
- all puzzles of up to 3 by 3 whose clues fit their lines, and all in which one line's clue needs one cell too many.

Each is solved by both rules, with the limits around the number of guesses that it takes. The library is asked for each
puzzle on its own, and the program for collections of up to 10,000. The verdicts of the small puzzles and of those of 4 by
4 are also compared with a list of all full grids.

Each comparison counts once: a text of a call or of a run, an entry or the totals of a survey, or a verdict. The last line
is `N passed, M failed`, and the exit status is 1 if a comparison failed. The test stops after 20 failures.
"""

import sys
from collections import defaultdict
from itertools import product

import solving
from comparing import PICKS, run_test
from solving import Puzzle

MAX_GUESSES = 1_000_000
MAX_ENTRIES = 10_000

# Examples


def example_puzzle(rows, columns):
    """Returns the puzzle with these clues, a text for each axis: commas between clues, spaces between numbers, and `0` for
    the empty clue.
    """
    axes = [tuple(tuple(int(n) for n in clue.split() if n != "0") for clue in axis.split(",")) for axis in (rows, columns)]
    return Puzzle(len(axes[1]), len(axes[0]), *axes)


# Of each example: the clues; the first line that `lines` prints, and the rows of its grid if there is one; and reports.
# A report has rules, limits, what `solve` prints between the sizes and the goal, and the solutions.
EXAMPLES = [
    # The example of the page, one like it, and the two that the page closes under trials.
    (
        ("1, 1", "1, 1"),
        ("open 0", "?? ??"),
        [
            ("first most", (0,), "unsettled search 0 0 0"),
            ("first most", (1,), "unsettled search 0 0 1", "#. .#"),
            ("first most", (2, 3, 1000, 1_000_000), "several search 0 0 2", "#. .#", ".# #."),
        ],
    ),
    (
        ("1, 1, 1", "1, 1, 1"),
        ("open 0", "??? ??? ???"),
        [
            ("first most", (0,), "unsettled search 0 0 0"),
            ("first most", (1,), "unsettled search 0 0 1"),
            ("first most", (2,), "unsettled search 0 0 2", "#.. .#. ..#"),
            ("first most", (3, 4, 1000, 1_000_000), "several search 0 0 3", "#.. .#. ..#", "#.. ..# .#."),
        ],
    ),
    (
        ("2, 1 1", "1, 1, 1, 1"),
        ("open 0", "???? ????"),
        [("first most", (0, 1, 1000, 1_000_000), "one trials 0 8 0", ".##. #..#")],
    ),
    (
        ("1 1 1, 3", "1, 1, 1, 1, 1, 1"),
        ("open 0", "?????? ??????"),
        [("first most", (0, 1, 1000, 1_000_000), "none trials 0 0 0")],
    ),
    # The last two with an empty row: what closing by lines knows stays, also if trials end dead.
    (
        ("2, 1 1, 0", "1, 1, 1, 1"),
        ("open 4", "???? ???? ...."),
        [("first most", (0, 1000), "one trials 4 12 0", ".##. #..# ....")],
    ),
    (
        ("1 1 1, 3, 0", "1, 1, 1, 1, 1, 1"),
        ("open 6", "?????? ?????? ......"),
        [("first most", (0, 1000), "none trials 6 0 0")],
    ),
    # A single cell: blank, filled, of two colours, and with a clue that doesn't fit.
    (("0", "0"), ("one 1", "."), [("first most", (0, 1000), "one line 1 1 0", ".")]),
    (("1", "1"), ("one 1", "#"), [("first most", (0, 1000), "one line 1 1 0", "#")]),
    (("1", "0"), ("none 0",), [("first most", (0, 1000), "none line 0 0 0")]),
    (("2", "1"), ("none 0",), [("first most", (0, 1000), "none line 0 0 0")]),
    # The first round leaves this grid full and alive, and the second one finds the first row dead.
    (("1, 0", "0, 0"), ("none 0",), [("first most", (0, 1000), "none line 0 0 0")]),
    # Two pictures that closing by lines solves.
    (
        ("2, 2 1, 1 1, 3, 1 1, 1 1, 2, 1 1, 1 2, 2", "2 1, 2 1 3, 7, 1 3, 2 1"),
        ("one 50", ".##.. .##.# ..#.# .###. #.#.. #.#.. ..##. .#.#. .#.## ##..."),
        [
            (
                "first most",
                (0, 1000),
                "one line 50 50 0",
                ".##.. .##.# ..#.# .###. #.#.. #.#.. ..##. .#.#. .#.## ##...",
            )
        ],
    ),
    (
        ("2 2, 7, 7, 5, 3, 1", "2, 4, 5, 5, 5, 4, 2"),
        ("one 42", ".##.##. ####### ####### .#####. ..###.. ...#..."),
        [("first most", (0, 1000), "one line 42 42 0", ".##.##. ####### ####### .#####. ..###.. ...#...")],
    ),
    # The only solution of this puzzle is found by the last guess by the rule `first`, and by the last but one by the rule
    # `most`, so a limit of one guess less then shows it but leaves the verdict unsettled.
    (
        ("1 1, 2 1, 1 2, 2 1, 1 1 1, 1 1 1, 1 1", "2, 2 1, 1 1 1, 2 1, 1 1 1, 1 2, 2"),
        ("open 0", "??????? ??????? ??????? ??????? ??????? ??????? ???????"),
        [
            ("first", (35,), "unsettled search 0 0 35"),
            ("first", (36,), "one search 0 0 36", "....#.# ..##..# .#.##.. ##...#. #.#.#.. .#.#.#. ..#..#."),
            ("most", (23,), "unsettled search 0 0 23", "....#.# ..##..# .#.##.. ##...#. #.#.#.. .#.#.#. ..#..#."),
            ("most", (24,), "one search 0 0 24", "....#.# ..##..# .#.##.. ##...#. #.#.#.. .#.#.#. ..#..#."),
        ],
    ),
    # Two independent switches. Each rule begins with another of them, so their second solutions differ.
    (
        ("1, 1, 0, 5, 5, 0, 1, 1", "1 2, 1 2, 2 1, 2, 2 1"),
        ("open 32", "??... ??... ..... ##### ##### ..... ..?.? ..?.?"),
        [
            ("first most", (0,), "unsettled search 32 32 0"),
            ("first most", (1,), "unsettled search 32 32 1"),
            ("first most", (2,), "unsettled search 32 32 2", "#.... .#... ..... ##### ##### ..... ..#.. ....#"),
            (
                "first",
                (3, 1000),
                "several search 32 32 3",
                "#.... .#... ..... ##### ##### ..... ..#.. ....#",
                "#.... .#... ..... ##### ##### ..... ....# ..#..",
            ),
            (
                "most",
                (3, 1000),
                "several search 32 32 3",
                "#.... .#... ..... ##### ##### ..... ..#.. ....#",
                ".#... #.... ..... ##### ##### ..... ..#.. ....#",
            ),
        ],
    ),
    # The second row is blank, so each column fills its first cell.
    (
        ("2, 0", "1, 1"),
        ("one 4", "## .."),
        [("first most", (0, 1000), "one line 4 4 0", "## ..")],
    ),
    # By lines three cells are known. Trials of filled make two more blank, and a trial of blank fills the first cell.
    (
        ("1 1, 2, 1, 1 2, 1", "1 1, 1, 2, 1 1, 2"),
        ("open 3", "????? ????? ???.? ???#? ???.?"),
        [("first most", (0,), "unsettled search 3 6 0")],
    ),
    # By lines the last column fills its middle cell, so the cell to the left of it is blank. If a trial fills one of the
    # first two cells of the first row, both rows below have to fill the other one's column, which has a single 1. The
    # guesses are the third cell of the first row, and then the first cell of the second.
    (
        ("1, 1 1, 1 1", "1, 1, 1, 2"),
        ("open 2", "???? ??.# ????"),
        [
            ("first most", (0,), "unsettled search 2 4 0"),
            ("first most", (1,), "unsettled search 2 4 1"),
            ("first most", (2,), "unsettled search 2 4 2", "..#. #..# .#.#"),
            ("first most", (3, 1000), "several search 2 4 3", "..#. #..# .#.#", "..#. .#.# #..#"),
        ],
    ),
    # Four rows with a filled cell each and three columns with one each, which no line or trial refutes: lines do once two
    # rows are filled, since two are left for one column. So a filled guess in the first row costs two more, both colours of
    # a cell in the second row. After two such guesses, each with its blank one, lines fill the first row's last cell:
    # 3 + 1 + 3 + 1 + 2 guesses.
    (
        ("1, 1, 1, 1", "1, 1, 1"),
        ("open 0", "??? ??? ??? ???"),
        [
            ("first most", (9,), "unsettled search 0 0 9"),
            ("first most", (10, 1000), "none search 0 0 10"),
        ],
    ),
    # Numbers greater than both sides, for which the program takes wider bit sets: of a row, of a column, and of both.
    (("1, 1 65, 1", "1, 1, 1"), ("none 0",), [("first most", (0, 1000), "none line 0 0 0")]),
    (("1, 1, 1", "1, 1, 256"), ("none 0",), [("first most", (0, 1000), "none line 0 0 0")]),
    (("1, 1, 129", "128, 1, 1"), ("none 0",), [("first most", (0, 1000), "none line 0 0 0")]),
]

# Made puzzles

SIZES = [(width, height) for height in (1, 2, 3) for width in (1, 2, 3)]
FITTING_CLUES = {
    1: ((), (1,)),
    2: ((), (1,), (2,)),
    3: ((), (1,), (2,), (3,), (1, 1)),
}
TOO_LONG_CLUES = {1: ((2,),), 2: ((3,), (1, 1)), 3: ((4,), (1, 2), (2, 1))}


def small_puzzles(width, height):
    """Returns all puzzles of a size in which each clue fits its line, and all in which just one clue needs one cell more
    than its line has, as a list.
    """
    lengths = [width] * height + [height] * width
    choices = [[FITTING_CLUES[length] for length in lengths]]
    for index, length in enumerate(lengths):
        choices.append(choices[0][:index] + [TOO_LONG_CLUES[length]] + choices[0][index + 1 :])
    return [Puzzle(width, height, clues[:height], clues[height:]) for choice in choices for clues in product(*choice)]


def drawn_puzzles(count, size=None):
    """Returns `count` drawn puzzles of up to 6 by 6, or, if `size` is given, of this width and height, as a list.

    The clues of every second one are those of a grid. Of the others the row clues and the column clues are those of two
    grids that differ in one row, so that often there is no solution.
    """
    state = 1

    def draw():
        nonlocal state
        state = (state * 6364136223846793005 + 1442695040888963407) % 2**64
        return state >> 33

    def lines(rows):
        return ["".join("#" if row >> x & 1 else "." for x in range(width)) for row in rows]

    puzzles = []
    for number in range(count):
        width, height = (draw() % 6 + 1, draw() % 6 + 1) if size is None else size
        chance = draw() % 3
        rows = []
        for _ in range(height):
            some, other = draw(), draw()
            rows.append((some & other, some, some | other)[chance])
        row_clues = tuple(map(solving.runs, lines(rows)))
        if number % 2:
            index = draw() % height
            rows[index] = draw()
        column_clues = tuple(map(solving.runs, solving.transposed(lines(rows))))
        puzzles.append(Puzzle(width, height, row_clues, column_clues))
    return puzzles


def limits(puzzle, pick):
    """Returns the limits that matter for `puzzle` by the rule `pick`, in ascending order: those around the number of
    guesses that it takes, and the least and the greatest one.
    """
    spent = solving.report(puzzle, MAX_GUESSES, pick).spent
    near = {spent // 2, spent - 1, spent, spent + 1} if spent else set()
    return sorted({0, MAX_GUESSES} | near)


def solutions_by_clues(width, height):
    """Returns all full grids of a size, as a dict from pairs (row clues, column clues) to lists of grids."""
    grids = defaultdict(list)
    for rows in product(map("".join, product("#.", repeat=width)), repeat=height):
        grids[tuple(map(solving.runs, rows)), tuple(map(solving.runs, solving.transposed(rows)))].append(rows)
    return grids


def named_text(puzzle):
    """Returns a name and a text for `puzzle`: in .nin if its sides are equal, and else in .mk, as such a text in .nin may
    be read with the sides exchanged.
    """
    name, text = ("puzzle.nin", solving.nin(puzzle)) if puzzle.width == puzzle.height else ("puzzle.mk", solving.mk(puzzle))
    return name, text.encode()


# Comparisons


class Surveys:
    """Gathers reports by rule and limit, and compares each collection of them with a survey by the program."""

    def __init__(self, program, results):
        self._program, self._results, self._groups = program, results, defaultdict(list)

    def add(self, puzzle, guesses, pick, report):
        """Adds an entry, and runs the survey of its rule and limit if that has as many entries as a survey may have."""
        group = self._groups[guesses, pick]
        group.append((puzzle, report))
        if len(group) == MAX_ENTRIES:
            self._run(guesses, pick)

    def run_all(self):
        """Runs the surveys of all entries that are left."""
        for guesses, pick in list(self._groups):
            self._run(guesses, pick)

    def _run(self, guesses, pick):
        entries = self._groups.pop((guesses, pick))
        collection, wanted = [], []
        for number, (puzzle, report) in enumerate(entries, 1):
            name, text = named_text(puzzle)
            collection.append(f"@ {name}\n".encode() + text)
            wanted.append(solving.entry_text(number, puzzle, report, name).encode())
        wanted.append(solving.totals_text([report for _, report in entries]).encode())
        words = ("survey", "--show", "--guesses", str(guesses), "--pick", pick)
        given = self._program.printed(*words, text=b"".join(collection))
        if given == b"".join(wanted):
            self._results.passed += len(wanted)
        else:
            self._fail_at_first_difference(" ".join(words), entries, wanted, given)

    def _fail_at_first_difference(self, what, entries, wanted, given):
        """Counts the entries before the first difference as passed, and the one that differs as failed."""
        if not isinstance(given, bytes):
            self._results.compare(what, None, f"{len(entries)} entries", given)
            return
        puzzles = [puzzle for puzzle, _ in entries] + [None]
        for number, (puzzle, text) in enumerate(zip(puzzles, wanted), 1):
            if not given.startswith(text):
                lines, given_lines = text.split(b"\n"), given.split(b"\n")
                given_lines += [b""] * (len(lines) - len(given_lines))
                pair = next((pair for pair in zip(lines, given_lines) if pair[0] != pair[1]), (text, given))
                part = "totals" if puzzle is None else f"entry {number} of {len(entries)}"
                self._results.compare(f"{what}, {part},", puzzle, *pair)
                return
            given = given[len(text) :]
            self._results.passed += 1
        self._results.compare(f"{what}, after the totals", None, b"", given)


class Test:
    """All comparisons, with the program and the library as far as they are given."""

    def __init__(self, program, library, results):
        self.program, self.library, self.results = program, library, results
        self.surveys = Surveys(program, results) if program else None

    def run(self):
        """Makes all comparisons."""
        self.compare_examples()
        drawn = drawn_puzzles(2000)
        for number, puzzle in enumerate(drawn):
            self.compare_reports(puzzle)
            self.compare_lines(puzzle, number < 200)
        self.compare_verdicts(drawn_puzzles(100, (4, 4)), solutions_by_clues(4, 4), True)
        for width, height in SIZES:
            puzzles = small_puzzles(width, height)
            for puzzle in puzzles:
                self.compare_reports(puzzle)
                self.compare_lines(puzzle, False)
            self.compare_verdicts(puzzles, solutions_by_clues(width, height), False)
        if self.surveys:
            self.surveys.run_all()

    def compare_examples(self):
        """Compares the examples' texts, which stand above, with those of `solving.py`, the program and the library."""
        self.results.compare("deduced 1 1 on ??#??", None, "?.#.?", solving.deduced((1, 1), "??#??"))
        for clues, (head, *grids), reports in EXAMPLES:
            puzzle = example_puzzle(*clues)
            name, text = named_text(puzzle)
            wanted = "".join(line + "\n" for line in [head, *" ".join(grids).split()]).encode()
            self.results.compare("lines by solving.py", puzzle, wanted, solving.lines_text(puzzle))
            self.compare_lines(puzzle, True)
            for picks, guess_limits, head, *solutions in reports:
                wanted = f"1 {puzzle.width}x{puzzle.height} {head} absent {name}\n"
                wanted = (wanted + "".join(grid.replace(" ", "\n") + "\n\n" for grid in solutions)).encode()
                for pick, guesses in product(picks.split(), guess_limits):
                    settings = f"--guesses {guesses} --pick {pick}"
                    given = solving.solve_text(puzzle, guesses, pick, name)
                    self.results.compare(f"solve {settings} by solving.py", puzzle, wanted, given)
                    if self.library:
                        given = self.library.solve(name.encode(), text, guesses, pick)
                        self.results.compare(f"solve {settings} by the library", puzzle, wanted, given)
                    if self.program:
                        given = self.program.printed_of(name, text, "solve", *settings.split())
                        self.results.compare(f"solve {settings} by the program", puzzle, wanted, given)

    def compare_reports(self, puzzle):
        """Compares the reports of `puzzle` by both rules with the limits that matter; those of the program later, in
        surveys.
        """
        for pick in PICKS:
            for guesses in limits(puzzle, pick):
                self.compare_report(puzzle, guesses, pick)

    def compare_report(self, puzzle, guesses, pick):
        """Compares one report of `puzzle`; that of the program later, in a survey."""
        report = solving.report(puzzle, guesses, pick)
        if self.library:
            name, text = named_text(puzzle)
            wanted = solving.entry_text(1, puzzle, report, name).encode()
            given = self.library.solve(name.encode(), text, guesses, pick)
            self.results.compare(f"solve --guesses {guesses} --pick {pick} by the library", puzzle, wanted, given)
        if self.surveys:
            self.surveys.add(puzzle, guesses, pick, report)

    def compare_lines(self, puzzle, with_program):
        """Compares what line logic knows of `puzzle` by the library, and by the program if `with_program` is true."""
        name, text = named_text(puzzle)
        if self.library:
            given = self.library.lines(name.encode(), text)
            self.results.compare("lines by the library", puzzle, solving.lines_text(puzzle), given)
        if self.program and with_program:
            given = self.program.printed_of(name, text, "lines")
            self.results.compare("lines by the program", puzzle, solving.lines_text(puzzle), given)

    def compare_verdicts(self, puzzles, grids, with_reports):
        """Compares the verdicts of puzzles of one size by `solving.py` with all full grids, and, if `with_reports` is
        true, also the reports of the program and the library, which have not been compared before.
        """
        for puzzle, pick in product(puzzles, PICKS):
            report = solving.report(puzzle, MAX_GUESSES, pick)
            shown, met = set(report.solutions), grids.get((puzzle.rows, puzzle.columns), [])
            count = min(len(met), 2)
            wanted = ("none", "one", "several")[count], True
            given = report.verdict, len(shown) == count and shown <= set(met)
            self.results.compare(f"verdict by {pick}, and whether the shown grids are solutions,", puzzle, wanted, given)
            if with_reports:
                self.compare_report(puzzle, MAX_GUESSES, pick)
                self.compare_lines(puzzle, False)


def test(results, program, library):
    """Makes all comparisons."""
    Test(program, library, results).run()


if __name__ == "__main__":
    sys.exit(run_test("Compares nonograde with a second implementation of solving.", test))
