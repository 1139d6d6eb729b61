#!/usr/bin/env python3
"""Prints at which goal the prover refused each wrong body, from a log of `rt ci` or `rt must-fail`.

Usage: tools/edits.py [--named] < LOG

With --named, each wrong body that tools/wrong-bodies.txt lists has to be in the log, refused at the goal that is listed
with it. The last line is `N passed, M failed`. Status 1 if one of these was refused elsewhere or is missing, or if any wrong
body was accepted, was refused only because a proof file cites a name that it removed, or could not be tried.
"""

import re
import sys
from pathlib import Path

TOP = Path(__file__).resolve().parent.parent
LIST = TOP / "tools/wrong-bodies.txt"
TRIED = re.compile(r"must-fail (\w+)/([\w.-]+)\.edit: (.*)")
REFUSED = re.compile(
    r"refused, as it must be: (?:\./)?(?:note: )?([\w/.+-]+):(\d+):\d+: "
    r"(?:(?:error: |it is not proved that .* \(|`search` found no proof \()`([^`]+)|it is not proved that control never comes here)"
)


def function_at(crate, file, line):
    """Returns the function of a file in which a line stands, as MODULE::NAME, or the module alone if no function stands
    above it, or if the file has lemmas: a wrong body keeps the numbers of lines, but may add functions."""
    if file.startswith("proofs/"):
        *folders, answers = Path(file).parts[1:]
        modules = [folder for folder in folders[:-1] if folder.islower()]
        return "::".join([*modules[-1:], folders[-1]] if folders else [Path(answers).stem])
    lines = (TOP / "crates" / crate / file).read_text().split("\n")
    at = line - 1
    while lines[at].lstrip().startswith("#["):
        at += 1
    names = re.findall(r"\bfn (\w+)", "\n".join(lines[: at + 1]))
    return "::".join([Path(file).stem, *names[-1:]])


def refusals(log):
    """Returns for each wrong body of a log the function and its goal, or None if it says neither, and prints them."""
    found = {}
    for line in log:
        tried = TRIED.search(line)
        if tried:
            crate, name, answer = tried.groups()
            place = REFUSED.match(answer)
            goal = (function_at(crate, place[1], int(place[2])), place[3] or "unreachable") if place else None
            found[f"{crate}/{name}"] = goal
            print(f"{crate}/{name}: {' '.join(goal) if goal else answer.strip()}")
    return found


def named():
    """Returns the function and the goal at which each listed wrong body has to be refused."""
    rows = [line.split() for line in LIST.read_text().splitlines() if line and not line.startswith("#")]
    return {edit: (function, goal) for edit, function, goal in rows}


def main(words):
    found = refusals(sys.stdin)
    failed = {edit for edit, goal in found.items() if goal is None}
    for edit, goal in named().items() if "--named" in words else ():
        if found.get(edit) != goal:
            print(f"FAILED {edit}: it has to be refused at {' '.join(goal)}")
            failed.add(edit)
    print(f"{len(found.keys() - failed)} passed, {len(failed)} failed")
    return len(failed) != 0


if __name__ == "__main__":
    sys.exit(main(sys.argv[1:]))
