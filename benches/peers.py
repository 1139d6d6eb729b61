"""The program beside SAT solvers on the same puzzles."""

import tempfile
from concurrent.futures import ProcessPoolExecutor
from pathlib import Path

from formulas import formula_of
from puzzles import drawn, entries, write_puzzle
from running import least_seconds, printed, seconds
from tables import Table, milliseconds

SOLVERS = ("minisat", "cadical")
# For each side, how many pictures are solved.
SIDES = {10: 10, 20: 10, 30: 10, 50: 10, 70: 5, 100: 5, 150: 3, 200: 2, 250: 2}
# How many rough pictures of each of these grades are solved, and their side.
GRADES, GRADED, ROUGH_SIDE = ("trials", "search"), 15, 25
GUESSES = "100000"
# A solver's statuses: a solution, and none.
STATUSES = (10, 20)


class Differs(Exception):
    """A SAT solver's verdict that isn't the program's."""


def solver_words(solver, formula, answer):
    return [solver, formula, answer] if solver == "minisat" else [solver, "-q", "-w", answer, formula]


def solution(answer):
    """Returns the variables that are true in the solution of an answer, if it is one."""
    said = answer.read_text()
    return None if "UNSAT" in said else {int(word) for word in said.split() if word.isdigit() and word != "0"}


def write_both(nin, folder):
    """Writes the formula of a puzzle, and, if a solution is found, that of any other one. Returns their paths."""
    folder = Path(folder)
    formula, paths, answer = formula_of(nin), [folder / "formula.cnf", folder / "another.cnf"], folder / "answer"
    formula.write(paths[0])
    seconds(solver_words("cadical", paths[0], answer), statuses=STATUSES)
    found = solution(answer)
    if found is None:
        return paths[:1]
    width, height = map(int, nin.splitlines()[0].split())
    formula.add(*(-cell if cell in found else cell for cell in range(1, width * height + 1)))
    formula.write(paths[1])
    return paths


def time_of_solver(solver, formulas, verdict):
    """Returns how long a solver takes to find a solution, and to look for another one."""
    with tempfile.TemporaryDirectory() as folder:
        answer = Path(folder) / "answer"
        total = sum(least_seconds(solver_words(solver, formula, answer), STATUSES) for formula in formulas)
        solutions = ["none", "one", "several"][len(formulas) - (solution(answer) is None)]
    if solutions != verdict:
        raise Differs(f"{solver} finds {solutions} where the program finds {verdict}")
    return total


def row(name, program, puzzles, folder):
    """Returns the row of some puzzles: the mean times of the program and of each solver."""
    folders = [Path(folder) / str(number) for number in range(len(puzzles))]
    for place in folders:
        place.mkdir(parents=True)
    paths = [write_puzzle(entry, place, "puzzle") for entry, place in zip(puzzles, folders)]
    nins = [printed([program, "convert", "--to", "nin", path]).decode() for path in paths]
    with ProcessPoolExecutor() as pool:
        formulas = list(pool.map(write_both, nins, folders))
    words = [[program, "solve", "--guesses", GUESSES, path] for path in paths]
    verdicts = [printed(it).decode().split(" ")[2] for it in words]
    times = [sum(map(least_seconds, words))]
    for solver in SOLVERS:
        times.append(sum(time_of_solver(solver, *it) for it in zip(formulas, verdicts)))
    ratios = [f"{time / times[0]:.1f}" for time in times[1:]]
    return [f"{len(puzzles)} {name}", *(milliseconds(time / len(puzzles)) for time in times), *ratios]


def rough(program, grade):
    """Returns rough pictures of a grade, those that the program settles."""
    text = drawn("rough", ROUGH_SIDE, 500)
    lines = printed([program, "survey", "--guesses", GUESSES], text).decode().splitlines()
    puzzles = [entry for entry, line in zip(entries(text), lines) if line.split(" ")[3] == grade and " unsettled " not in line]
    return puzzles[:GRADED]


def peers(program):
    """The program beside SAT solvers, on pictures of growing size and on rough ones."""
    with tempfile.TemporaryDirectory() as folder:
        rows = [row(f"of {side} by {side}, `line`", program, entries(drawn("pictures", side, number)), f"{folder}/{side}")
                for side, number in SIDES.items()]
        rows += [row(f"of {ROUGH_SIDE} by {ROUGH_SIDE}, `{grade}`", program, rough(program, grade), f"{folder}/{grade}")
                 for grade in GRADES]
    head = ["pictures, by grade", *(f"`{name}`, ms" for name in ("nonograde", *SOLVERS))]
    head += [f"{solver} over it" for solver in SOLVERS]
    return [Table(head, rows)]
