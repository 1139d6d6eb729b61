"""The most that puzzles are known to take, and what the two rules of the next guess spend."""

import heapq
import itertools
import tempfile
from pathlib import Path

from puzzles import drawn, entries, write_puzzle
from running import at_once, count, least_seconds, printed, survey_words
from tables import Table, figure, milliseconds

# For each side, how many puzzles of noise are searched for the slowest one: together a million.
MADE = {10: 400_000, 15: 300_000, 20: 200_000, 25: 70_000, 30: 30_000}
BATCH = 5_000
# Of how many puzzles, those with the most guesses, the instructions are counted.
COUNTED = 12
# The sides of puzzles all of whose clues are 1. To count the instructions of those after the first takes too long.
ONES = (128, 129, 256)
RULED = [("noise", 2_000, 10), ("noise", 2_000, 15), ("noise", 1_000, 20),
         ("rough", 2_000, 30), ("rough", 2_000, 40), ("rough", 500, 50)]


def surveyed(program, text, *words):
    """Returns the words of each entry's line in a survey."""
    lines = printed([*survey_words(program), *words], text).decode().splitlines()[:-1]
    return [line.split(" ") for line in lines]


def batch(program, side, seed):
    """Returns the puzzles of one batch with the most guesses: their guesses, seed and number, and the entry."""
    text = drawn("noise", side, BATCH, seed)
    found = surveyed(program, text)
    guesses = [(int(words[6]), -seed, -number) for number, words in enumerate(found)]
    puzzles = entries(text)
    return [(most, puzzles[-most[2]]) for most in heapq.nlargest(COUNTED, guesses)]


def instructions(program, paths):
    return at_once(lambda path: count([program, "solve", path]), paths)


def slowest(program, side, folder):
    """Returns the instructions and the path of the puzzle that takes the most, of those with the most guesses."""
    batches = at_once(lambda seed: batch(program, side, seed), range(MADE[side] // BATCH))
    most = heapq.nlargest(COUNTED, itertools.chain(*batches))
    paths = [write_puzzle(entry, folder, f"{side}-{number}") for number, (_, entry) in enumerate(most)]
    return max(zip(instructions(program, paths), paths))


def write_ones(side, folder):
    """Writes the puzzle all of whose clues are 1 into a file, and returns its path."""
    path = Path(folder) / f"ones-{side}.nin"
    path.write_text(f"{side} {side}\n" + "1\n" * (2 * side))
    return path


def row(program, name, path, executed):
    """Returns the row of one puzzle: its line, and what it takes."""
    words = [program, "solve", path]
    line = printed(words).decode().split(" ")
    counted = figure(executed / 1e6) if executed else "not counted"
    return [name, f"{line[2]} {line[3]}", f"{int(line[6]):,}", counted, milliseconds(least_seconds(words))]


def worst(program):
    """The puzzles that are known to take the most for their size."""
    with tempfile.TemporaryDirectory() as folder:
        ones = [write_ones(side, folder) for side in ONES]
        counts = [*instructions(program, ones[:1]), None, None]
        rows = [row(program, f"all clues `1`, {side} by {side}", *it) for side, *it in zip(ONES, ones, counts)]
        for side, number in MADE.items():
            executed, path = slowest(program, side, folder)
            rows.append(row(program, f"the slowest of {number:,} of noise, {side} by {side}", path, executed))
    return [Table(["puzzle", "verdict and grade", "guesses", "million instructions", "ms"], rows)]


def rules(program):
    """The guesses that both rules of the next guess spend."""

    def spent(kind, number, side, rule):
        """The guesses of each puzzle that needs a search, or None if it stays unsettled."""
        found = surveyed(program, drawn(kind, side, number), "--pick", rule)
        return [None if words[2] == "unsettled" else int(words[6]) for words in found if words[3] == "search"]

    runs = [(*ruled, rule) for ruled in RULED for rule in ("first", "most")]
    found = at_once(spent, *zip(*runs))
    rows = []
    for (kind, number, side), first, most in zip(RULED, found[::2], found[1::2]):
        both = [(a, b) for a, b in zip(first, most) if a is not None and b is not None]
        rows.append([
            f"{number:,} {kind}, {side} by {side}", f"{len(first):,}", f"{first.count(None)} and {most.count(None)}",
            f"{sum(a for a, _ in both):,} and {sum(b for _, b in both):,}",
            f"{sum(b < a for a, b in both)} and {sum(b > a for a, b in both)}",
        ])
    head = ["pictures", "that need a search", "unsettled by `first` and by `most`",
            "guesses of the others by `first` and by `most`", "fewer and more by `most`"]
    return [Table(head, rows)]
