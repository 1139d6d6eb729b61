"""What surveys and calls take: wall time by lanes, peak memory, a start of the program, a call of the library."""

import subprocess
import tempfile
from pathlib import Path

from puzzles import KINDS, TOP, collections, drawn, entries, write_puzzle
from running import at_once, count, count_by_thread, least, peak_mib, printed, seconds, survey_words
from tables import Table, figure, microseconds, milliseconds

ARCHIVE = "libnonograde.a"
ROUNDS = 5
# How often a collection is repeated, so that it takes long enough.
TIMES = 4
STARTS = 500
CALLS = 20_000


def lanes(program):
    """The gain of four lanes, and of four programs of one lane at once."""
    paths = collections()
    shares = at_once(lambda path: count_by_thread(survey_words(program, 4), path), paths.values())
    rows = []
    with tempfile.TemporaryDirectory() as folder:
        for kind, path, threads in zip(KINDS, paths.values(), shares):
            text = Path(folder) / kind
            text.write_bytes(path.read_bytes() * TIMES)
            one, four, programs = least(
                ROUNDS,
                lambda: seconds(survey_words(program), text),
                lambda: seconds(survey_words(program, 4), text),
                lambda: seconds(survey_words(program), text, copies=4),
            )
            bound, share = sum(threads) / max(threads), threads[0] / sum(threads)
            gains = [f"{gain:.2f}" for gain in (one / four, 4 * one / programs, bound)]
            rows.append([f"`{kind}`", milliseconds(one), *gains, f"{share:.1%}"])
    gained = ["4 lanes", "4 programs", "by the busiest thread at most"]
    return [Table(["collection", "one lane, ms", *gained, "instructions of the first thread"], rows)]


def memory(program):
    """The peak memory of surveys with and without solutions."""
    side = 256
    blank = f"{side} {side}\n" + "0\n" * (2 * side)
    texts = {
        "pictures of 10 by 10": drawn("pictures", 10, 10_000),
        f"blank grids of {side} by {side}": "".join(f"@ {number}.nin\n{blank}" for number in range(10_000)).encode(),
    }
    rows = []
    with tempfile.TemporaryDirectory() as folder:
        path = Path(folder) / "collection"
        for name, text in texts.items():
            path.write_bytes(text)
            peaks = [peak_mib([program, "survey", *words], path) for words in ([], ["--show"])]
            rows.append([f"10,000 {name}", f"{len(text):,}", *(f"{peak:.0f}" for peak in peaks)])
    return [Table(["collection", "bytes", "peak, MiB", "with `--show`, MiB"], rows)]


def small_puzzle(folder):
    """Writes a picture of 10 by 10 cells into a file, and returns its path."""
    return write_puzzle(entries(drawn("pictures", 10, 1))[0], folder, 1)


def time_of(words):
    """Returns the mean time of a run: that of the fastest of ten parts."""
    [taken] = least(10, lambda: sum(seconds(words) for _ in range(STARTS // 10)))
    return taken / (STARTS // 10)


def start(program):
    """A start of the program, beside one of a program that does nothing."""
    with tempfile.TemporaryDirectory() as folder:
        runs = {
            "`true`": ["true"],
            "`nonograde --version`": [program, "--version"],
            "`nonograde solve`, a picture of 10 by 10": [program, "solve", small_puzzle(folder)],
        }
        rows = [[name, microseconds(time_of(words)), f"{count(words):,}"] for name, words in runs.items()]
    return [Table(["process", "microseconds", "instructions"], rows)]


def library(program, made):
    """Calls of the library beside a process that solves, and beside a start of the program."""
    with tempfile.TemporaryDirectory() as folder:
        caller, puzzle = Path(folder) / "call", small_puzzle(folder)
        sources = [TOP / "benches/call.c", f"{made}/{ARCHIVE}", "-lpthread"]
        subprocess.run(["cc", "-std=c11", "-O1", "-I", TOP / "include", "-o", caller, *sources], check=True)

        def call(times, what):
            return [caller, puzzle, str(times), what]

        def measured(what):
            [taken] = least(ROUNDS, lambda: float(printed(call(CALLS, what))))
            return taken, (count(call(1001, what)) - count(call(1, what))) / 1000

        def process(*words):
            return time_of([program, *words]), count([program, *words])

        costs = {
            "a call of `nonograde_solve`": measured("solve"),
            "a process, `nonograde solve`": process("solve", puzzle),
            "a call of `nonograde_close` by lines, no cell known": measured("close"),
            "a call of `nonograde_extend`, no cell known": measured("extend"),
            "a start, `nonograde --version`": process("--version"),
        }
    rows = [[name, microseconds(taken), f"{instructions:,.0f}"] for name, (taken, instructions) in costs.items()]
    solved, solving, closed, _, started = costs.values()
    ratios = {
        "the process over the call that solves": (solving, solved),
        "the start over the call that closes": (started, closed),
    }
    for name, (dear, cheap) in ratios.items():
        rows.append([name, *(figure(more / less) for more, less in zip(dear, cheap))])
    return [Table(["a picture of 10 by 10", "microseconds", "instructions"], rows)]
