"""A second implementation of how `nonograde` solves and grades a puzzle.

It is written from `docs/solving.md` and `docs/formats.md` alone, as plainly as they define it, and shares no code with
the program, so that a test can compare the two. Where the program has its ways to be quick, this module lists all full
lines of a clue, deduces all lines of a grid in each round, and tries every unknown cell; it only caches what it computed.

A line is a string of `#` for filled, `.` for blank and `?` for unknown cells, and a grid is a tuple of such rows. A grid
that was found to be contradictory is dead, and None stands in its place. A cell is a pair (x, y) of its column and its
row, counted from 0. A clue is a tuple of numbers.

>>> knot = Puzzle(4, 2, ((2,), (1, 1)), ((1,), (1,), (1,), (1,)))
>>> print(solve_text(knot, 1000, "first", "knot.mk").decode(), end="")
1 4x2 one trials 0 8 0 absent knot.mk
.##.
#..#
<BLANKLINE>
>>> print(lines_text(knot).decode(), end="")
open 0
????
????
"""

from collections import Counter, namedtuple
from functools import lru_cache

FILLED, BLANK, UNKNOWN = "#", ".", "?"

Puzzle = namedtuple("Puzzle", "width height rows columns")
Puzzle.__doc__ = "A puzzle: its sizes, and tuples of the clues of its rows, from the top, and of its columns, from the left."

Report = namedtuple("Report", "verdict grade line_known trial_known spent solutions")
Report.__doc__ = """What solving a puzzle found.

The verdict is `none`, `one`, `several` or `unsettled`, and the grade is `line`, `trials` or `search`. `line_known` and
`trial_known` count the cells that are known after closing by lines and after trials, and `spent` counts the guesses. The
solutions are a tuple of at most two full grids in the order in which the search found them.
"""

# Lines


def runs(line):
    """Returns the lengths of the runs of filled cells of a full line, in order.

    >>> runs("##..#.")
    (2, 1)
    """
    return tuple(len(run) for run in line.split(BLANK) if run)


@lru_cache(maxsize=None)
def full_lines(clue, length):
    """Returns all full lines of `length` cells whose runs are `clue`, as a list.

    >>> full_lines((1, 1), 4)
    ['#.#.', '#..#', '.#.#']
    """
    if not clue:
        return [BLANK * length]
    lines = []
    for start in range(length - clue[0] + 1):
        head = BLANK * start + FILLED * clue[0]
        if len(clue) > 1:
            head += BLANK
        lines += [head + tail for tail in full_lines(clue[1:], length - len(head))]
    return lines


def placings(clue, line):
    """Returns the placings of `clue` on `line`: all full lines whose runs are `clue` and which agree with each known cell.

    >>> placings((1, 1), "??#??")
    ['#.#..', '..#.#']
    """

    def agrees(full):
        return all(known in (UNKNOWN, colour) for known, colour in zip(line, full))

    return [full for full in full_lines(clue, len(line)) if agrees(full)]


@lru_cache(maxsize=None)
def deduced(clue, line):
    """Returns the line in which each cell has the colour that all placings of `clue` on `line` share and is unknown if
    they differ, or None if there is no placing.

    >>> deduced((1, 1), "??#??")
    '?.#.?'
    >>> deduced((3,), "?.?") is None
    True
    """
    found = placings(clue, line)
    if not found:
        return None
    return "".join(colours[0] if len(set(colours)) == 1 else UNKNOWN for colours in zip(*found))


# Grids


def unknown_grid(puzzle):
    """Returns the grid of the puzzle's size in which no cell is known."""
    return (UNKNOWN * puzzle.width,) * puzzle.height


def transposed(lines):
    """Returns the columns of a grid that is given as its rows, or its rows if it is given as its columns."""
    return tuple(map("".join, zip(*lines)))


def known_count(grid):
    """Returns how many cells of `grid` are known; 0 if it is dead."""
    return 0 if grid is None else sum(len(row) - row.count(UNKNOWN) for row in grid)


def unknown_cells(grid):
    """Returns the unknown cells of `grid` in row order, as a list."""
    return [(x, y) for y, row in enumerate(grid) for x, colour in enumerate(row) if colour == UNKNOWN]


def is_full(grid):
    """Returns whether each cell of `grid` is known."""
    return all(UNKNOWN not in row for row in grid)


def assigned(grid, cell, colour):
    """Returns `grid` with `cell` in `colour`."""
    x, y = cell
    row = grid[y][:x] + colour + grid[y][x + 1 :]
    return grid[:y] + (row,) + grid[y + 1 :]


def is_solution(puzzle, grid):
    """Returns whether the runs along each line of the full grid `grid` are the puzzle's clues."""
    return tuple(map(runs, grid)) == puzzle.rows and tuple(map(runs, transposed(grid))) == puzzle.columns


# Closure and trials


@lru_cache(maxsize=None)
def joined(line, other):
    """Returns the line that knows what either of two lines of the same cells knows, or None if they give a cell two
    colours.

    >>> joined("?.#", "#??")
    '#.#'
    >>> joined("#", ".") is None
    True
    """
    cells = []
    for colour, other_colour in zip(line, other):
        if UNKNOWN not in (colour, other_colour) and colour != other_colour:
            return None
        cells.append(other_colour if colour == UNKNOWN else colour)
    return "".join(cells)


def line_round(puzzle, grid):
    """Returns `grid` after a round, in which each row and each column is deduced from `grid` as it is; None if a line is
    dead, or if a row and a column give a cell two colours.
    """
    rows = [deduced(clue, line) for clue, line in zip(puzzle.rows, grid)]
    columns = [deduced(clue, line) for clue, line in zip(puzzle.columns, transposed(grid))]
    if None in rows or None in columns:
        return None
    lines = tuple(map(joined, rows, transposed(columns)))
    return None if None in lines else lines


@lru_cache(maxsize=10_000)
def closure(puzzle, grid):
    """Returns `grid` closed by lines: after rounds until one changes nothing. It is None if the grid is then dead."""
    while grid is not None:
        before, grid = grid, line_round(puzzle, grid)
        if grid == before:
            break
    return grid


def trial_round(puzzle, grid):
    """Returns `grid` after a trial round.

    Each colour of each unknown cell is tried from `grid` as it is, and refuted if the closure is then dead. A cell of
    which one colour is refuted gets the other one, and the grid is closed by lines. The result is None if both colours
    of a cell are refuted, or if that closure is dead.
    """
    after = grid
    for cell in unknown_cells(grid):
        consistent = [c for c in (FILLED, BLANK) if closure(puzzle, assigned(grid, cell, c)) is not None]
        if not consistent:
            return None
        if len(consistent) == 1:
            after = assigned(after, cell, consistent[0])
    return closure(puzzle, after)


@lru_cache(maxsize=10_000)
def trials(puzzle, grid):
    """Returns `grid` closed under trials: after trial rounds until one changes nothing. It is None if the grid is then
    dead.
    """
    while grid is not None:
        before, grid = grid, trial_round(puzzle, grid)
        if grid == before:
            break
    return grid


# Search


def first(grid):
    """Returns the first unknown cell of `grid` in row order."""
    return unknown_cells(grid)[0]


def most(grid):
    """Returns the unknown cell of `grid` of whose four neighbours the most are known or outside the grid, and among equals
    the first in row order.
    """

    def known_neighbours(cell):
        x, y = cell
        inside = [(x - 1, y), (x + 1, y), (x, y - 1), (x, y + 1)]
        inside = [(i, j) for i, j in inside if 0 <= i < len(grid[0]) and 0 <= j < len(grid)]
        return 4 - sum(grid[j][i] == UNKNOWN for i, j in inside)

    return max(unknown_cells(grid), key=known_neighbours)  # `max` returns the first one of equals.


PICKS = {"first": first, "most": most}

GUESS = "guess"


def events(puzzle, grid, pick):
    """Yields the events of the search that starts from `grid`, which is closed by lines or dead, and guesses by the rule
    `pick`, in order: GUESS before each guess is made, and each solution once it is found.
    """
    pending = []  # The guesses that are still to be made, the next one last.
    while True:
        if grid is not None and is_full(grid):
            yield grid
        elif grid is not None:
            cell = PICKS[pick](grid)
            pending += [(grid, cell, BLANK), (grid, cell, FILLED)]
        if not pending:
            return
        yield GUESS
        grid = closure(puzzle, assigned(*pending.pop()))


def walk(happenings, guesses):
    """Returns how far a search with these events comes with at most `guesses` guesses: how many guesses it spends, a tuple
    of the solutions that it finds, and whether the limit cuts it short. It ends with the second solution.
    """
    spent, solutions = 0, ()
    for event in happenings:
        if event == GUESS:
            if spent == guesses:
                return spent, solutions, True
            spent += 1
        else:
            solutions += (event,)
            if len(solutions) == 2:
                break
    return spent, solutions, False


def report(puzzle, guesses, pick):
    """Returns the report of `puzzle`, with at most `guesses` guesses by the rule `pick`, `first` or `most`."""
    by_lines = closure(puzzle, unknown_grid(puzzle))
    by_trials = None if by_lines is None else trials(puzzle, by_lines)
    if by_lines is None or is_full(by_lines):
        grade = "line"
    elif by_trials is None or is_full(by_trials):
        grade = "trials"
    else:
        grade = "search"
    spent, solutions, was_cut = walk(events(puzzle, by_trials, pick), guesses)
    verdict = "unsettled" if was_cut else ("none", "one", "several")[len(solutions)]
    return Report(verdict, grade, known_count(by_lines), known_count(by_trials), spent, solutions)


# Texts


def clue_text(clue):
    """Returns the clue line of `clue`: its numbers with single spaces, or `0` for the empty clue."""
    return " ".join(map(str, clue)) or "0"


def nin(puzzle):
    """Returns the text of `puzzle` in .nin.

    If the sides differ, and the clues fit the other way round but not this way, the text says another puzzle.
    """
    lines = [f"{puzzle.width} {puzzle.height}", *map(clue_text, puzzle.rows), *map(clue_text, puzzle.columns)]
    return "".join(line + "\n" for line in lines)


def mk(puzzle):
    """Returns the text of `puzzle` in .mk."""
    lines = [f"{puzzle.height} {puzzle.width}", *map(clue_text, puzzle.rows), "#", *map(clue_text, puzzle.columns)]
    return "".join(line + "\n" for line in lines)


def entry_text(number, puzzle, report, name):
    """Returns what `nonograde survey --show` prints for the entry `number` of a collection, a puzzle without a goal: the
    line of its report, and its solutions, each followed by an empty line.
    """
    text = (
        f"{number} {puzzle.width}x{puzzle.height} {report.verdict} {report.grade} {report.line_known} "
        f"{report.trial_known} {report.spent} absent {name}\n"
    )
    return text + "".join("\n".join(solution) + "\n\n" for solution in report.solutions)


def totals_text(reports):
    """Returns the last line that `nonograde survey` prints for a collection with these reports and no refused entry."""
    words = Counter(word for report in reports for word in (report.verdict, report.grade))
    shown = ("refused", "none", "one", "several", "unsettled", "line", "trials", "search")
    return f"entries {len(reports)} " + " ".join(f"{word} {words[word]}" for word in shown) + "\n"


def solve_text(puzzle, guesses, pick, name):
    """Returns the bytes that `nonograde solve --guesses GUESSES --pick PICK NAME` prints for `puzzle` without a goal."""
    return entry_text(1, puzzle, report(puzzle, guesses, pick), name).encode()


def lines_text(puzzle):
    """Returns the bytes that `nonograde lines` prints for `puzzle`."""
    grid = closure(puzzle, unknown_grid(puzzle))
    if grid is None:
        return b"none 0\n"
    word = "one" if is_full(grid) else "open"
    return "".join(line + "\n" for line in (f"{word} {known_count(grid)}", *grid)).encode()
