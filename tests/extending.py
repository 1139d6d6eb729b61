"""Compares `extend` of the Python package with all full grids of up to 12 cells, with the second implementation in
`solving.py`, and with `solve`."""

import random
from collections import defaultdict
from itertools import product

import nonograde
import solving

CELLS = 12  # of the largest puzzles here
DRAWN = 3000
LIMITS = (0, 1, 10, nonograde.MAX_GUESSES)
WORDS = ("none", "one", "several")


def clues_of(rows):
    """The clues of a full grid: those of its rows, and those of its columns."""
    return tuple(map(solving.runs, rows)), tuple(map(solving.runs, solving.transposed(rows)))


def full_grids(width, height):
    """All full grids of a size."""
    lines = ["".join(cells) for cells in product("#.", repeat=width)]
    return product(lines, repeat=height)


def grids_by_clues(width, height):
    """All full grids of a size, by their clues: the solutions of each puzzle that has one."""
    found = defaultdict(list)
    for rows in full_grids(width, height):
        found[clues_of(rows)].append(rows)
    return found


def extends(full, grid):
    """Whether a full grid has each known cell of a grid."""
    return all(cell in ("?", colour) for row, line in zip(grid, full) for cell, colour in zip(row, line))


def given_grid(source, rows):
    """A grid of the size of a full one: cells of this one, one of them perhaps changed; or any cells, all, or none."""
    if source.random() < 0.2:
        cells = source.choice(("#.???", "#.", "?"))
        return tuple("".join(source.choice(cells) for _ in row) for row in rows)
    share = source.choice((0, 0.3, 0.6, 0.9))
    grid = ["".join("?" if source.random() < share else cell for cell in row) for row in rows]
    if source.random() < 0.3:
        y, x = source.randrange(len(rows)), source.randrange(len(rows[0]))
        grid[y] = grid[y][:x] + source.choice("#.") + grid[y][x + 1 :]
    return tuple(grid)


def is_right(found, wanted, limit):
    """Whether a result is right of the solutions that extend a grid, and of a limit on guesses."""
    solutions = found.solutions
    if not set(solutions) <= set(wanted) or len(set(solutions)) < len(solutions) or found.guesses > limit:
        return False
    if found.verdict == "unsettled":
        return limit < nonograde.MAX_GUESSES and found.guesses == limit and len(solutions) < 2
    return found.verdict == WORDS[min(2, len(wanted))] and len(solutions) == min(2, len(wanted))


def compare_all(results):
    """Checks `extend` on each puzzle of up to 12 cells that has a solution, and on clues without one. Checks that each verdict
    is seen with each limit, but for those that can't be."""
    source, seen = random.Random(29), set()
    for width, height in product(range(1, CELLS + 1), repeat=2):
        if width * height > CELLS:
            continue
        found = grids_by_clues(width, height)
        rows, columns = [sorted(set(clues)) for clues in zip(*found)]
        crossed = {(rows_of, columns_of) for rows_of, _ in found for _, columns_of in source.choices([*found], k=1)} - set(found)
        for clues, wanted in [*found.items(), *((clues, []) for clues in sorted(crossed))]:
            text = solving.mk(solving.Puzzle(width, height, *clues))
            grid = given_grid(source, source.choice(wanted or source.choice([*found.values()])))
            limit, pick = source.choice(LIMITS), source.choice(nonograde.PICKS)
            result = nonograde.extend(text, "mk", grid, limit, pick)
            wanted = [full for full in wanted if extends(full, grid)]
            results.compare("extend", (text, grid, limit, pick, result), True, is_right(result, wanted, limit))
            seen.add((limit, result.verdict))
    wanted = {*product(LIMITS, (*WORDS, "unsettled"))} - {(0, "several"), (1, "several"), (LIMITS[-1], "unsettled")}
    results.compare("the verdicts", "seen", set(), wanted - seen - {(10, "unsettled")})


def drawn_puzzle(source):
    """A puzzle of up to 5 by 5 and a grid of its size: the clues of a full grid, or clues of two grids."""
    width, height = source.randint(1, 5), source.randint(1, 5)
    share = source.choice((0.3, 0.5, 0.7))
    grids = [["".join("#" if source.random() < share else "." for _ in range(width)) for _ in range(height)] for _ in range(2)]
    columns = clues_of(grids[source.random() < 0.2])[1]
    return solving.Puzzle(width, height, clues_of(grids[0])[0], columns), given_grid(source, grids[0])


def compare_drawn(results):
    """Compares `extend` with the second implementation, which finds the same solutions with as many guesses."""
    source = random.Random(31)
    for _ in range(DRAWN):
        puzzle, grid = drawn_puzzle(source)
        limit, pick = source.choice(LIMITS), source.choice(nonograde.PICKS)
        events = solving.events(puzzle, solving.trials(puzzle, grid), pick)
        spent, solutions, was_cut = solving.walk(events, limit)
        wanted = nonograde.Extended("unsettled" if was_cut else WORDS[len(solutions)], spent, solutions)
        text = solving.mk(puzzle)
        results.compare("extend", (text, grid, limit, pick), wanted, nonograde.extend(text, "mk", "\n".join(grid), limit, pick))


def compare_solved(results, puzzles):
    """Compares `extend` on grids without a known cell with `solve`, for all puzzles of a folder, and on their solutions."""
    for file in sorted(puzzles.rglob("*.*")):
        if file.suffix[1:] not in nonograde.FORMATS:
            continue
        text, format = nonograde.read(file)
        for limit, pick in product((0, 3, 1000), nonograde.PICKS):
            try:
                solved = nonograde.solve(text, format, limit, pick)
            except nonograde.Fault:
                break
            wanted = nonograde.Extended(solved.verdict, solved.guesses, solved.solutions)
            given = nonograde.extend(text, format, "?" * solved.width * solved.height, limit, pick)
            results.compare("extend", (file.name, limit, pick), wanted, given)
            for rows in solved.solutions:
                given = nonograde.extend(text, format, rows, limit, pick)
                results.compare("extend", (file.name, rows), nonograde.Extended("one", 0, (rows,)), given)


def compare_extended(results, puzzles):
    """Makes all comparisons of `extend`."""
    compare_all(results)
    compare_drawn(results)
    compare_solved(results, puzzles)
