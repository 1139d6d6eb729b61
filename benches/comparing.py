"""The program beside the reference solver: what both print, and how many instructions they execute."""

import math
import tempfile
from pathlib import Path

from puzzles import KINDS, TOP, collections, entries, reference
from running import at_once, count, count_own, printed, survey_words
from tables import Table

RECORDED = TOP / "benches/recorded.txt"
# For how many of the first puzzles of each collection the program's own instructions are recorded.
FIRST = {"pictures": 40, "large": 3, "trials": 15, "search": 5, "odd": 40}
MOST_PERCENT = 105  # of the recorded number
CONTENTS = {
    "pictures": "2,000 of 10 to 50 cells a side that lines solve",
    "large": "100 pictures of 100 to 128 a side",
    "trials": "300 puzzles of 15 to 30 a side that trials solve",
    "search": "100 of 25 to 40 a side with 100 guesses and more",
    "odd": "permutations, switches, long and thin ones, contradictions, noise",
}


def compare_answers(program):
    """Compares what both print, with all solutions. Returns how many entries are alike, and how many collections aren't."""
    passed = failed = 0
    for kind, path in collections().items():
        ours = printed([program, "survey", "--lanes", "4", "--show"], path).split(b"\n")
        theirs = printed([reference(), "survey", "1000"], path).split(b"\n")
        if ours == theirs:
            passed += len(entries(path.read_bytes()))
        else:
            failed += 1
            lines = next((pair for pair in zip(ours, theirs) if pair[0] != pair[1]), (b"more or less",) * 2)
            print(f"FAILED {kind}: the program prints {lines[0]!r}, the reference solver {lines[1]!r}")
    return passed, failed


def own_instructions(program):
    """Returns how many instructions of its own the program executes for the first puzzles of each collection."""
    with tempfile.TemporaryDirectory() as room:

        def own(kind, path):
            first = Path(room) / kind
            first.write_bytes(b"".join(entries(path.read_bytes())[: FIRST[kind]]))
            return count_own(survey_words(program), first, program)

        return dict(zip(KINDS, at_once(own, *zip(*collections().items()))))


def compare_speed(program):
    """Compares the program's instructions with those recorded. Returns how many collections pass, and how many fail."""
    recorded = dict(line.split() for line in RECORDED.read_text().splitlines())
    passed = failed = 0
    for kind, number in own_instructions(program).items():
        percent = number * 100 / int(recorded[kind])
        print(f"{kind}: {number:,} instructions, {percent:.1f}% of those recorded")
        if percent <= MOST_PERCENT:
            passed += 1
        else:
            failed += 1
            print(f"FAILED {kind}: over {MOST_PERCENT}%. `make instructions` records them anew")
    return passed, failed


def test(program):
    passed, failed = map(sum, zip(compare_answers(program), compare_speed(program)))
    print(f"{passed} passed, {failed} failed")
    return 1 if failed else 0


def record(program):
    RECORDED.write_text("".join(f"{kind} {number}\n" for kind, number in own_instructions(program).items()))
    return 0


def instructions(program):
    """The instructions of both for each collection."""
    runs = [(words, path) for path in collections().values() for words in (survey_words(program), [reference(), "survey"])]
    counts = at_once(count, *zip(*runs))
    pairs = list(zip(counts[::2], counts[1::2]))
    mean = math.exp(sum(math.log(ours / theirs) for ours, theirs in pairs) / len(pairs))
    rows = [[f"`{kind}`: {CONTENTS[kind]}", f"{ours / 1e6:,.0f}", f"{theirs / 1e6:,.0f}", f"{ours / theirs:.2f}"]
            for kind, (ours, theirs) in zip(KINDS, pairs)]
    head = ["collection", "program, million", "reference solver, million", "ratio"]
    return [Table(head, [*rows, ["geometric mean", "", "", f"{mean:.2f}"]])]
