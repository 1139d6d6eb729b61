"""Running programs, and what a run takes: wall time, peak memory, instructions."""

import os
import re
import shutil
import subprocess
import sys
import tempfile
import time
from concurrent.futures import ThreadPoolExecutor
from pathlib import Path

# Runs the program that its words name, and prints its peak memory and its status. A process's peak is at least that of the
# one that started it, so this is for a new interpreter, which is small.
PEAK = """
import os, sys
nothing = (os.POSIX_SPAWN_OPEN, 1, os.devnull, os.O_WRONLY, 0)
run = os.posix_spawnp(sys.argv[1], sys.argv[1:], os.environ, file_actions=[nothing])
_, status, used = os.wait4(run, 0)
print(used.ru_maxrss, os.waitstatus_to_exitcode(status))
"""
# The Debian packages of programs, if they have other names.
PACKAGES = {"cc": "gcc libc6-dev"}
# In the output of callgrind: a file of code, or of the code that is called, with its number and, the first time, its name;
# and the position of an instruction, or of several, and what they cost. Below `calls=` stands the cost of what was called.
CODE_FILE = re.compile(r"(c?)ob=(\(\d+\))(?: (.+))?")
COST = re.compile(r"[+\-*\d]\S* (\d+)$")


class Missing(Exception):
    """A program or file that a command needs and doesn't find."""


def need(*programs):
    """Raises `Missing` unless each program is installed."""
    missing = [program for program in programs if not shutil.which(program)]
    if missing:
        packages = " ".join(PACKAGES.get(program, program) for program in missing)
        raise Missing(f"there is no {' and no '.join(missing)}, which `apt-get install {packages}` installs on Debian")


def need_file(path, made_by):
    if not Path(path).is_file():
        raise Missing(f"there is no {path}, which `{made_by}` makes")


def at_once(function, *arguments):
    """Returns what a function gives of each argument, computed on all processors."""
    with ThreadPoolExecutor(os.cpu_count()) as pool:
        return list(pool.map(function, *arguments))


def survey_words(program, lanes=1):
    return [program, "survey", "--lanes", str(lanes)]


def printed(words, collection=b""):
    """Returns what a program prints of a collection, which is a file or its bytes."""
    if isinstance(collection, bytes):
        return subprocess.run(words, input=collection, stdout=subprocess.PIPE, check=True).stdout
    with open(collection, "rb") as text:
        return subprocess.run(words, stdin=text, stdout=subprocess.PIPE, check=True).stdout


def seconds(words, collection=os.devnull, copies=1, statuses=(0,)):
    """Returns the wall time of a run, or of several at once up to the end of the last. What they print is dropped."""
    texts = [open(collection, "rb") for _ in range(copies)]
    begun = time.perf_counter()
    runs = [subprocess.Popen(words, stdin=text, stdout=subprocess.DEVNULL, stderr=subprocess.DEVNULL) for text in texts]
    ended = [run.wait() for run in runs]
    taken = time.perf_counter() - begun
    for text in texts:
        text.close()
    for status in ended:
        if status not in statuses:
            raise subprocess.CalledProcessError(status, words)
    return taken


def least(rounds, *runs):
    """Does each run in turn, several rounds of them, and returns the least that each gave."""
    return [min(times) for times in zip(*([run() for run in runs] for _ in range(rounds)))]


def least_seconds(words, statuses=(0,)):
    """Returns the least wall time of three runs, or that of one if it takes half a second."""
    first = seconds(words, statuses=statuses)
    return first if first > 0.5 else min(first, *least(2, lambda: seconds(words, statuses=statuses)))


def peak_mib(words, collection=os.devnull):
    peak, status = map(int, printed([sys.executable, "-I", "-S", "-c", PEAK, *words], collection).split())
    if status:
        raise subprocess.CalledProcessError(status, words)
    return peak / 1024


def counted(words, collection, *settings):
    """Runs a program under callgrind. Returns the lines of what that writes, by thread if a setting asks for that."""
    need("valgrind")
    with tempfile.TemporaryDirectory() as folder:
        printed(["valgrind", "-q", "--tool=callgrind", f"--callgrind-out-file={folder}/out", *settings, *words], collection)
        return [path.read_text().splitlines() for path in sorted(Path(folder).iterdir())]


def sum_of(lines):
    return sum(int(line.split()[1]) for line in lines if line.startswith("totals:"))


def count(words, collection=b""):
    """Returns how many instructions a run executes."""
    [lines] = counted(words, collection)
    return sum_of(lines)


def count_by_thread(words, collection):
    """Returns how many instructions each thread of a run executes, first the one that began."""
    counts = [sum_of(lines) for lines in counted(words, collection, "--separate-threads=yes")]
    return [number for number in counts if number]


def count_own(words, collection, code):
    """Returns how many instructions in one file of code a run executes."""
    [lines] = counted(words, collection)
    names, total, is_counted, is_call = {}, 0, False, False
    for line in lines:
        if found := CODE_FILE.match(line):
            is_callee, number, name = found.groups()
            names[number] = name or names[number]
            if not is_callee:
                is_counted = names[number] == code
        elif line.startswith("calls="):
            is_call = True
        elif found := COST.match(line):
            if is_counted and not is_call:
                total += int(found[1])
            is_call = False
    return total
