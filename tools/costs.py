#!/usr/bin/env python3
"""Runs a command, and writes to a file for which five crates the prover took the most processor time.

Usage: tools/costs.py FILE COMMAND..

Ends as the command does. Ends the command if a file FILE.stop comes to exist. It looks at the prover's processes every
five seconds, so each of them may have taken up to five seconds more.
"""

import os
import subprocess
import sys
import time
from collections import Counter
from pathlib import Path

TICKS = os.sysconf("SC_CLK_TCK")


def provers(session):
    """Yields what identifies each process of the prover in a session, its crate, and the seconds that it has taken."""
    for process in Path("/proc").glob("[0-9]*"):
        try:
            words = (process / "cmdline").read_bytes().split(b"\0")
            fields = (process / "stat").read_text().rpartition(") ")[2].split()
        except OSError:
            continue
        if b"--crate-name" in words and int(fields[3]) == session:
            crate = words[words.index(b"--crate-name") + 1].decode()
            yield (process, fields[19]), crate, (int(fields[11]) + int(fields[12])) / TICKS


def main(file, *command):
    taken = {}
    with subprocess.Popen(command, start_new_session=True) as ran:
        try:
            while ran.poll() is None:
                if Path(f"{file}.stop").exists():
                    ran.terminate()
                for process, crate, seconds in provers(ran.pid):
                    taken[process] = crate, seconds
                time.sleep(5)
        finally:
            ran.terminate()
    costs = Counter()
    for crate, seconds in taken.values():
        costs[crate] += seconds
    Path(file).write_text("".join(f"{crate} {seconds:.0f} s\n" for crate, seconds in costs.most_common(5)))
    return ran.returncode


if __name__ == "__main__":
    sys.exit(main(*sys.argv[1:]))
