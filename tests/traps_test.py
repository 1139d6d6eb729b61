#!/usr/bin/env python3
"""Runs `nonograde check` on the files of `traps.py`, and compares what it prints with `traps.expected`.

Usage: traps_test.py --program PROGRAM

`traps.expected` has a list of runs: a line `$ check` with options and names, what is printed, the exit status in brackets,
and an empty line. In names `\\x20` and its like stand for a byte. It was worked out from `docs/formats.md` and
`docs/solving.md`, and not from what the program prints.

Each run is made with 1, 4 and 16 lanes, and with `--strict`, of which the status has to be 1 if there is an error or a
warning. If all its files can be read it is made on a collection of them too, where the last line counts entries. Nothing
may be written on standard error. The file that may not be read is left out if the tests are run by root.

Each run counts once. The last line is `N passed, M failed`, and the exit status is 1 if a comparison failed.
"""

import argparse
import os
import re
import sys
import tempfile
from collections import namedtuple

from comparing import Program, Results, TooManyFailures
from traps import FILES, LOCKED, write_traps

HERE = os.path.dirname(os.path.abspath(__file__))
LANES = (1, 4, 16)
VALUED = (b"--guesses", b"--pick", b"--grade")  # the options whose value is a word of its own

Run = namedtuple("Run", "options names printed status")
Run.__doc__ = "A run that is expected: its options with their values, its names, what is printed, and the exit status."


def unescaped(word):
    r"""Returns a word with the bytes that `\x20` and its like stand for.

    >>> unescaped(rb"two\x20words")
    b'two words'
    """
    return re.sub(rb"\\x([0-9a-f]{2})", lambda match: bytes.fromhex(match[1].decode()), word)


def options_and_names(words):
    """Returns the words of a command line that are options or their values, and those that are names.

    >>> options_and_names([b"--pick", b"most", b"a.mk", b"--all", b"b.mk"])
    ([b'--pick', b'most', b'--all'], [b'a.mk', b'b.mk'])
    """
    options, names = [], []
    for before, word in zip([b"", *words], words):
        (options if word.startswith(b"--") or before in VALUED else names).append(word)
    return options, names


def expected_runs():
    """Returns the runs of `traps.expected`."""
    with open(os.path.join(os.path.dirname(os.path.abspath(__file__)), "traps.expected"), "rb") as file:
        parts = re.findall(rb"^\$ check(.*)\n((?:.*\n)*?)\[([01])\]\n", file.read(), re.MULTILINE)
    return [
        Run(*options_and_names([unescaped(word) for word in line.split()]), printed, int(status))
        for line, printed, status in parts
    ]


def collection_of(names):
    """Returns a collection of these files, or None if one of them isn't there to be read. A line feed is added to a text
    without one at its end if an entry follows; `traps.expected` names a text last if that would change what is found.
    """
    collection = b""
    for number, name in enumerate(names, 1):
        text = FILES.get(name.decode())
        if text is None:
            return None
        if text and not text.endswith(b"\n") and number < len(names):
            text += b"\n"
        collection += b"@ " + name + b"\n" + text
    return collection


def of_entries(printed):
    r"""Returns what is printed of files as it is printed of entries.

    >>> of_entries(b"a.mk: error: 1 file\n1 file: 0 with one solution, 1 error, 0 warnings\n")
    b'a.mk: error: 1 file\n1 entry: 0 with one solution, 1 error, 0 warnings\n'
    """
    findings, totals = printed[:-1].rpartition(b"\n")[::2]
    totals = totals.replace(b" files:", b" entries:").replace(b" file:", b" entry:")
    return (findings + b"\n" if findings else b"") + totals + b"\n"


def strict_status(printed):
    """Returns the exit status with `--strict`: 1 if the last line counts errors or warnings."""
    errors, warnings = re.search(rb"(\d+) errors?, (\d+) warnings?\n$", printed).groups()
    return 0 if int(errors) + int(warnings) == 0 else 1


def compare(results, program, words, text, wanted):
    """Compares how the program ends for these words after `check`, and what it prints, with `text` on standard input. The
    wanted values are the exit status and what is printed. If these differ, names the first line that does.
    """
    status, printed, reported = program.run(b"check", *words, text=text)
    given = status, printed
    if printed != wanted[1]:
        lines = [part.split(b"\n") + [None] * printed.count(b"\n") for part in (wanted[1], printed)]
        number = next((number for number, pair in enumerate(zip(*lines)) if pair[0] != pair[1]), 0)
        wanted, given = [(found[0], number + 1, part[number]) for found, part in zip((wanted, given), lines)]
    where = " on standard input" if text else ""
    results.compare("check" + where, b" ".join(words)[-150:], (*wanted, b""), (*given, reported))


def compare_runs(results, program):
    """Makes all runs."""
    runs = expected_runs()
    results.compare("number of runs", "traps.expected", True, len(runs) > 40)
    named = {name.decode() for run in runs for name in run.names}
    results.compare("files that no run names", "traps.expected", set(), set(FILES) - named)
    for run in runs:
        if LOCKED.encode() in run.names and os.geteuid() == 0:
            continue
        words, collection = [*run.options, *run.names], collection_of(run.names)
        ways = [([b"--lanes", b"%d" % lanes], run.status) for lanes in LANES]
        ways.append(([b"--strict"], strict_status(run.printed)))
        for options, status in ways:
            if run.names:
                compare(results, program, [*options, *words], b"", (status, run.printed))
            if collection is not None:
                compare(results, program, [*run.options, *options], collection, (status, of_entries(run.printed)))


def main():
    """Makes all runs in a folder with the traps, and prints the counts. Returns the exit status."""
    parser = argparse.ArgumentParser(description="Compares findings of nonograde check with those that are expected.")
    parser.add_argument("--program", required=True, help="the program")
    options = parser.parse_args()
    results = Results()
    with tempfile.TemporaryDirectory() as room:
        folder = os.path.join(room, "traps")
        write_traps(folder)
        try:
            compare_runs(results, Program(options.program, folder))
        except TooManyFailures:
            pass
    print(f"{results.passed} passed, {results.failed} failed")
    return 1 if results.failed else 0


if __name__ == "__main__":
    sys.exit(main())
