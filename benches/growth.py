"""How cost grows with the size of a picture, the length of a collection and the number of lanes."""

import tempfile
from pathlib import Path

from puzzles import drawn
from running import at_once, count, least, seconds, survey_words
from tables import Table, figure, milliseconds

# For each side, how many pictures are timed together.
SIDES = {10: 2000, 25: 1000, 50: 200, 75: 100, 100: 100, 150: 50, 200: 25, 250: 15}
LENGTHS = (10, 100, 1_000, 10_000)
LANES = (1, 2, 4, 8, 16)
ROUNDS = 3


def sizes(program, folder):
    def made(side):
        path = Path(folder) / str(side)
        path.write_bytes(drawn("pictures", side, SIDES[side]))
        return path, count(survey_words(program), path)

    rows = []
    for side, (path, instructions) in zip(SIDES, at_once(made, SIDES)):
        [taken] = least(ROUNDS, lambda: seconds(survey_words(program), path))
        each = [milliseconds(taken / SIDES[side]), figure(instructions / SIDES[side] / 1e6)]
        cell = f"{taken / SIDES[side] / side**2 * 1e9:.0f}"
        rows.append([f"{SIDES[side]:,} of {side} by {side}", *each, cell])
    return Table(["pictures that lines solve", "ms each", "million instructions each", "ns for each cell"], rows)


def lengths(program, folder):
    rows = []
    for length in LENGTHS:
        path = Path(folder) / "collection"
        path.write_bytes(drawn("pictures", 20, length))
        times = least(ROUNDS, *(lambda lanes=lanes: seconds(survey_words(program, lanes), path) for lanes in LANES))
        rows.append([f"{length:,}", *map(milliseconds, times)])
    return Table(["entries of 20 by 20", *(f"{lanes} {'lane' if lanes == 1 else 'lanes'}, ms" for lanes in LANES)], rows)


def growth(program):
    """How cost grows with sides, with entries and with lanes."""
    with tempfile.TemporaryDirectory() as folder:
        return [sizes(program, folder), lengths(program, folder)]
