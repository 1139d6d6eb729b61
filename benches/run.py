#!/usr/bin/env python3
"""Measures the program, beside others too, on puzzles made from a seed.

Commands:
  make          builds the reference solver, plain Rust and unproved, and makes five collections, all in out/benches
  test          tests that both print the same of these, and that the program got no slower
  record        records how fast the program is, for that test
  page [TABLE]  measures all tables, or those named, and writes them into docs/benchmarks.md

Tables; as a command each is printed:
{tables}

The program got slower if for the first puzzles of a collection it executes over 5% more instructions of its own than
benches/recorded.txt says; those of the C library don't count, since its code depends on the machine. The last line of `test`
is `N passed, M failed`. Wall times are the least of several runs, to be taken on an idle machine; what is printed then is
dropped. Status 1: a test failed, or a run ended badly. 2: something is missing.
"""

import argparse
import os
import subprocess
import sys
import time

sys.dont_write_bytecode = True  # no folder beside these files

import comparing
import growth
import page
import peers
import puzzles
import searching
import shards
import timing
from running import Missing, need, need_file

# For each table what measures it, and the programs that this needs.
TABLES = {
    "peers": (peers.peers, "minisat cadical"),
    "instructions": (comparing.instructions, "valgrind"),
    "start": (timing.start, "valgrind"),
    "library": (timing.library, "valgrind cc"),
    "lanes": (timing.lanes, "valgrind"),
    "memory": (timing.memory, ""),
    "growth": (growth.growth, "valgrind"),
    "worst": (searching.worst, "valgrind"),
    "rules": (searching.rules, ""),
    "shards": (shards.shards, "parallel mawk gawk"),
}
COMMANDS = {"test": comparing.test, "record": comparing.record}


def check(names, words):
    """Raises `Missing` unless everything that these tables need is there."""
    need(*sorted({program for name in names for program in TABLES[name][1].split()}))
    if "library" in names:
        need_file(f"{words.library}/{timing.ARCHIVE}", "tools/library.sh")


def measured(name, words):
    """Returns the tables of a command."""
    begun = time.monotonic()
    arguments = [words.program, *([words.library] if name == "library" else [])]
    tables = TABLES[name][0](*arguments)
    print(f"{name}: {time.monotonic() - begun:.0f} s", file=sys.stderr)
    return tables


def write_page(names, words):
    for name in names:
        tables = measured(name, words)
        page.write(name, tables)
        if name == "peers":
            page.plot(*tables)


def perform(words):
    """Does what a command line asks for, and returns the status."""
    if words.command == "make":
        puzzles.collections()
        return 0
    if not os.access(words.program, os.X_OK):
        raise Missing(f"there is no program {words.program}; `make` builds it")
    if words.command in COMMANDS:
        return COMMANDS[words.command](words.program)
    if words.command == "page":
        names = words.tables or list(TABLES)
        check(names, words)
        write_page(names, words)
    else:
        check([words.command], words)
        print(*measured(words.command, words), sep="\n\n")
    return 0


def main():
    about = __doc__.format(tables="\n".join(f"  {name:12}  {table.__doc__}" for name, (table, _) in TABLES.items()))
    parser = argparse.ArgumentParser(description=about, formatter_class=argparse.RawDescriptionHelpFormatter)
    parser.add_argument("command", choices=["make", *COMMANDS, "page", *TABLES], metavar="COMMAND")
    parser.add_argument("tables", nargs="*", metavar="TABLE")
    built = puzzles.TOP / "crates/nonograde/out/nonograde"
    parser.add_argument("--program", default=built, help="the program, else the one that is built here")
    parser.add_argument("--library", default=puzzles.TOP / "out/library", help="its folder, else out/library")
    words = parser.parse_intermixed_args()
    if words.tables and words.command != "page":
        parser.error("only `page` takes tables")
    if unknown := [table for table in words.tables if table not in TABLES]:
        parser.error(f"there is no table {unknown[0]}")
    words.program = os.path.realpath(words.program)
    try:
        return perform(words)
    except Missing as missing:
        print(f"run.py: {missing}", file=sys.stderr)
        return 2
    except peers.Differs as differs:
        print(f"run.py: {differs}", file=sys.stderr)
    except subprocess.CalledProcessError as ended:
        print(f"run.py: {' '.join(map(str, ended.cmd))} ended with status {ended.returncode}", file=sys.stderr)
    return 1


if __name__ == "__main__":
    sys.exit(main())
