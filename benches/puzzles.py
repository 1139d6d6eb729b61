"""The puzzles on which the program is measured. The reference solver makes them, each collection from a seed."""

import re
import subprocess
from pathlib import Path

from running import need, printed

TOP = Path(__file__).resolve().parent.parent
OUT = TOP / "out/benches"
SOURCES = sorted((TOP / "benches/reference").glob("*.rs"))
SEED = "1"
# The processor level for which the program is built, too.
BUILD = "rustc --edition 2021 -O -C codegen-units=1 -C target-cpu=x86-64-v2".split()
KINDS = ("pictures", "large", "trials", "search", "odd")


def reference():
    """Builds the reference solver, if its sources are newer, and returns its path."""
    path = OUT / "reference"
    if not path.exists() or any(it.stat().st_mtime > path.stat().st_mtime for it in SOURCES):
        need("rustc")
        OUT.mkdir(parents=True, exist_ok=True)
        subprocess.run([*BUILD, TOP / "benches/reference/main.rs", "-o", path], check=True)
    return path


def collections():
    """Makes the five collections, if the reference solver is newer, and returns the path of each."""
    folder, made = OUT / f"seed-{SEED}", OUT / f"seed-{SEED}/made"
    if not made.exists() or made.stat().st_mtime < reference().stat().st_mtime:
        folder.mkdir(parents=True, exist_ok=True)
        subprocess.run([reference(), "generate", SEED, folder], check=True)
        made.touch()
    return {kind: folder / f"{kind}.txt" for kind in KINDS}


def drawn(kind, side, count, seed=SEED):
    """Returns a collection of square puzzles: `pictures` that lines solve, `noise`, or `rough` pictures, smoothed once."""
    return printed([reference(), "draw", kind, str(side), str(count), str(seed)])


def entries(text):
    return re.split(rb"(?m)^(?=@ )", text)[1:]


def write_puzzle(entry, folder, number):
    """Writes the puzzle of an entry into a file, and returns its path."""
    name, _, text = entry.partition(b"\n")
    path = Path(folder) / f"{number}{Path(name.decode()).suffix}"
    path.write_bytes(text)
    return path
