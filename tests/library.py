#!/usr/bin/env python3
"""Runs the examples of the Python package and of its page, and compares what its calls give with what the program prints.

Usage: library.py PROGRAM TOP

PROGRAM is the program, TOP the top of the repository. Compares each field of each result for the puzzles of `puzzles/`, in
each format, and for 500 puzzles made here; `close` with the second implementation in `solving.py` on 3,000 made grids;
`extend` as `extending.py` does; `nonograde.h` with the crate; and what wrong arguments raise. The package is the one that
Python imports. Its last line is `N passed, M failed`.
"""

import contextlib
import ctypes
import dataclasses
import doctest
import io
import json
import os
import pickle
import random
import re
import subprocess
import sys
import tempfile
import threading
import urllib.error
import urllib.request
from http.server import ThreadingHTTPServer
from pathlib import Path
from xml.etree import ElementTree

import nonograde
import solving
from comparing import Program, Results, TooManyFailures
from extending import compare_extended
from header import compare_header, enum_of_header, status_comments

MADE = 500
CLOSED = 3000
TWO = "2 2\n1\n1\n1\n1\n"
ENDS = ("\n", "\r\n")
NO_FORMAT = "format is 'txt', and has to be one of non, mk, nin"
LATIN_1 = b'title "Caf\xe9"\nwidth 1\nheight 1\n\nrows\n1\n\ncolumns\n1\n'


def runs(line):
    """The lengths of the runs of filled cells."""
    return [len(run) for run in line.replace(".", " ").split()]


def made_clues(source, most):
    """The clues of the rows and of the columns of a grid of up to `most` a side."""
    width, height = source.randint(1, most), source.randint(1, most)
    share = source.choice((0.4, 0.6, 0.8))
    rows = ["".join("#" if source.random() < share else "." for _ in range(width)) for _ in range(height)]
    return [runs(row) for row in rows], [runs(column) for column in map("".join, zip(*rows))]


def text_of(rows, columns):
    """Clues as a text in .nin."""
    return f"{len(columns)} {len(rows)}\n" + "".join(" ".join(map(str, clue or [0])) + "\n" for clue in [*rows, *columns])


def text_or_bytes(body):
    """A text as a `str` if it is UTF-8."""
    try:
        return body.decode()
    except UnicodeDecodeError:
        return body


def given_by(call, *words, **settings):
    """What a call gives, or the word of its fault with the line."""
    try:
        return call(*words, **settings)
    except nonograde.Fault as fault:
        return fault.word if fault.line is None else f"{fault.word}:{fault.line}"


def raised_by(call, *words, **settings):
    """The type of what a call raises, and what that says."""
    try:
        call(*words, **settings)
    except Exception as error:  # each type is compared
        return type(error), str(error)
    return None, None


def solved_of(printed):
    """What `solve` prints, as the fields of `Solved`; a fault as it is."""
    if isinstance(printed, str):
        return printed
    head, *grids = printed.decode("latin-1").removesuffix("\n\n").replace("\n", "\n\n", 1).split("\n\n")
    words = head.split(" ")
    width, height = words[1].split("x")
    return {
        "width": int(width), "height": int(height), "verdict": words[2], "grade": words[3], "known_by_lines": int(words[4]),
        "known_by_trials": int(words[5]), "guesses": int(words[6]), "goal": words[7],
        "solutions": tuple(tuple(grid.split("\n")) for grid in grids if grid),
    }


def differing_cells(solutions):
    """The cells, as pairs (column, row), in which two solutions differ."""
    first, second = solutions
    return [(x, y) for y in range(len(first)) for x in range(len(first[0])) if first[y][x] != second[y][x]]


def compare_solved(results, name, wanted, given):
    """Compares a result of `solve` with what the program prints."""
    wanted = solved_of(wanted)
    if not isinstance(given, nonograde.Solved):
        results.compare("solve", name, wanted, given)
        return
    results.compare("solve", name, wanted, dataclasses.asdict(given))
    solutions = wanted["solutions"] if isinstance(wanted, dict) else ()
    results.compare("the rows", name, solutions[0] if solutions else (), given.rows)
    results.compare("the differing cells", name, differing_cells(solutions) if len(solutions) == 2 else [], given.differing)
    results.compare("str", name, "\n\n".join("\n".join(rows) for rows in solutions), str(given))


def compare_graded(results, name, wanted, given):
    """Compares a result of `grade` with what the program prints for `solve`."""
    wanted = solved_of(wanted)
    if isinstance(wanted, dict):
        del wanted["solutions"]
    results.compare("grade", name, wanted, given._asdict() if isinstance(given, nonograde.Graded) else given)


def compare_lines(results, name, wanted, given):
    """Compares a result of `lines` with what the program prints."""
    if isinstance(wanted, bytes) and isinstance(given, nonograde.Lines):
        wanted = wanted.decode()
        given = f"{given.word} {given.known}\n{given}\n".replace("\n\n", "\n")
    results.compare("lines", name, wanted, given)


def report_of(printed):
    """What `survey --format json` prints of its only entry, as the result of `report`: a fault if that is refused."""
    members = json.loads(printed.splitlines()[0])
    if members["fault"] is None:
        return members
    return members["fault"] if members["fault_line"] is None else f"{members['fault']}:{members['fault_line']}"


def printed_findings(name, findings):
    """A result of `check` as the program prints it of a file."""
    if not isinstance(findings, tuple):
        return findings
    heads = [name if finding.line is None else f"{name}:{finding.line}" for finding in findings]
    rows = [[f"{head}: {it.level}: {it.sentence}", *it.pictures] for head, it in zip(heads, findings)]
    return "".join(f"{row}\n" for row in sum(rows, []))


class Compared:
    """Compares calls on a text with the program, which runs in a folder of its own."""

    def __init__(self, results, program, folder):
        self.results, self.program, self.folder = results, Program(program, folder), Path(folder)

    def solve(self, name, text, **settings):
        """Compares `solve`, and returns what it gives."""
        options = [word for key, value in settings.items() for word in (f"--{key}", str(value))]
        given = given_by(nonograde.solve, text, Path(name).suffix, **settings)
        body = text.encode() if isinstance(text, str) else text
        printed = self.program.printed_of(name, body, "solve", *options)
        compare_solved(self.results, f"{name} {settings}", printed, given)
        compare_graded(self.results, f"{name} {settings}", printed, given_by(nonograde.grade, text, Path(name).suffix, **settings))
        self.report(name, text, options, **settings)
        self.check(name, text, options, **settings)
        return given

    def report(self, name, text, options, **settings):
        """Compares `report` on a file that was written."""
        wanted = report_of(self.program.printed("survey", "--format", "json", *options, name))
        given = given_by(nonograde.report, text, Path(name).suffix, name=name, **settings)
        self.results.compare("report", f"{name} {settings}", wanted, given)

    def check(self, name, text, options, **settings):
        """Compares `check` on a file that was written."""
        lines = self.program.run("check", *options, name)[1].decode().splitlines(keepends=True)
        given = given_by(nonograde.check, text, Path(name).suffix, **settings)
        self.results.compare("check", f"{name} {settings}", "".join(lines[:-1]), printed_findings(name, given))

    def all_calls(self, name, body):
        """Compares each call on a file of this name, and returns its conversions by format."""
        self.solve(name, body)
        compare_lines(self.results, name, self.program.printed("lines", name), given_by(nonograde.lines, body, Path(name).suffix))
        text = nonograde.read(self.folder / name)
        self.results.compare("read", name, (text_or_bytes(body), Path(name).suffix[1:]), text)
        converted = {}
        for to in nonograde.FORMATS:
            wanted = self.program.printed("convert", "--to", to, name)
            converted[to] = given_by(nonograde.convert, body, Path(name).suffix, to)
            self.results.compare(f"convert to {to}", name, wanted, converted[to])
            if isinstance(text.text, str):
                as_text = wanted.decode() if isinstance(wanted, bytes) else wanted
                self.results.compare(f"convert to {to}, str", name, as_text, given_by(nonograde.convert, *text, to))
        return converted


def compare_puzzles(compared, puzzles):
    """Compares all calls on each puzzle of a folder, as it is and converted."""
    for file in sorted(puzzles.rglob("*.*")):
        if file.suffix[1:] in nonograde.FORMATS:
            for to, body in compared.all_calls(file.name, file.read_bytes()).items():
                if isinstance(body, bytes):
                    compared.all_calls(f"{file.stem}_again.{to}", body)


def compare_made(compared):
    """Compares `solve` and `solve_clues` on made puzzles."""
    source = random.Random(47)
    for place in range(MADE):
        rows, columns = made_clues(source, 12)
        found = compared.solve(f"made{place}.nin", text_of(rows, columns))
        compared.results.compare("solve_clues", text_of(rows, columns), found, nonograde.solve_clues(rows, columns))


def made_grid(source, rows):
    """A grid of the size of a solution: cells of the solution, one of them perhaps changed, or any cells."""
    if source.random() < 0.2:
        return ["".join(source.choice("#.???") for _ in row) for row in rows]
    share = source.choice((0, 0.3, 0.6, 0.9, 1))
    grid = ["".join("?" if source.random() < share else cell for cell in row) for row in rows]
    if source.random() < 0.3:
        y, x = source.randrange(len(rows)), source.randrange(len(rows[0]))
        grid[y] = grid[y][:x] + source.choice("#.") + grid[y][x + 1 :]
    return grid


def closed_of(grid):
    """A grid that the second implementation closed, None if it is dead, as the result of `close`."""
    if grid is None:
        return nonograde.Lines("none", ())
    return nonograde.Lines("one" if solving.is_full(grid) else "open", grid)


def compare_closed(results):
    """Compares `close` with the second implementation on made grids, which are given in each form, and checks that each of
    its answers is seen."""
    source, seen = random.Random(83), set()
    closures = {"lines": solving.closure, "trials": solving.trials}
    for _ in range(CLOSED):
        width, height = source.randint(1, 5), source.randint(1, 5)
        share = source.choice((0.3, 0.5, 0.7))
        rows = ["".join("#" if source.random() < share else "." for _ in range(width)) for _ in range(height)]
        puzzle = solving.Puzzle(width, height, *(tuple(map(solving.runs, lines)) for lines in (rows, solving.transposed(rows))))
        grid = made_grid(source, rows)
        forms = [grid, "".join(grid), "\n".join(grid), "\r\n".join(grid), "".join(row + source.choice(ENDS) for row in grid)]
        text, given = solving.mk(puzzle), source.choice(forms)
        wanted = {by: closed_of(close(puzzle, tuple(grid))) for by, close in closures.items()}
        found = {by: given_by(nonograde.close, text, "mk", given, by) for by in closures}
        results.compare("close", (text, given), wanted, found)
        seen |= {(by, closed.word) for by, closed in wanted.items()} | {wanted["lines"] == wanted["trials"]}
    words = {(by, word) for by in closures for word in ("one", "open", "none")}
    results.compare("the closed grids", "seen", words | {True, False}, seen)


def check_cells(results):
    """Checks that cells that don't fit a puzzle are refused."""
    misfits = [[], ["?"], ["????"], ["???", "?"], ["?", "???"], ["??"] * 3, ["??", "??", ""], ["??", "", "??"], ["??", "?x"]]
    for rows in misfits:
        for call in (nonograde.close, nonograde.extend):
            results.compare(call.__name__, rows, "BadCells", given_by(call, TWO, "nin", rows))
    for grid in ("", "?", "?????", "???x", "??\r??", "??\n??\n\n", "\n??\n??", "??\n??\r", "??\n\r??", "?\n???", b"\xff???"):
        for call in (nonograde.close, nonograde.extend):
            results.compare(call.__name__, grid, "BadCells", given_by(call, TWO, "nin", grid))
    for call in (nonograde.close, nonograde.extend):
        for grid in (iter(["#?", "??"]), b"#???", bytearray(b"#???"), memoryview(b"#?\n??")):
            results.compare(call.__name__, type(grid), ("#.", ".#"), call(TWO, "nin", grid).rows)


def compare_settings(compared):
    """Compares `solve` under each setting, and checks that each does something."""
    source = random.Random(5)
    puzzles = [made_clues(source, 12) for _ in range(60)]
    puzzles = [puzzle for puzzle in puzzles if nonograde.solve_clues(*puzzle).guesses > 0]
    differing = {"guesses": 0, "pick": 0}
    for place, puzzle in enumerate(puzzles):
        name, text = f"set{place}.nin", text_of(*puzzle)
        settings = [{}, {"pick": "most"}, {"guesses": 1}, {"guesses": nonograde.MAX_GUESSES, "pick": "most"}]
        found = [compared.solve(name, text, **setting) for setting in settings]
        of_clues = [nonograde.solve_clues(*puzzle, **setting) for setting in settings]
        compared.results.compare("solve_clues", (name, settings), found, of_clues)
        differing["pick"] += found[1].guesses != found[0].guesses
        differing["guesses"] += found[2].guesses < found[0].guesses
    idle = [name for name, count in differing.items() if not count]
    compared.results.compare("settings that do nothing", f"of {len(puzzles)} puzzles", [], idle)


def many_rows(width, height):
    """A puzzle in .nin with two solutions, whose first two rows have a filled cell."""
    return text_of([[1], [1]] + [[]] * (height - 2), [[1], [1]] + [[]] * (width - 2))


def long_texts():
    """A puzzle in .non whose texts are too long for the first buffer."""
    notes = "".join(f'{key} "{key[0] * 60000}"\n' for key in ("catalogue", "title", "by", "copyright"))
    return f"{notes}width 1\nheight 1\n\nrows\n1\n\ncolumns\n1\n"


def compare_buffers(compared):
    """Compares calls whose first buffer has each size around the answer's, that grids take one call, and that long texts take
    two."""
    usual = nonograde._first_buffer
    calls = [(nonograde.solve, TWO, "nin"), (nonograde.convert, TWO, "nin", "mk"), (nonograde.version,)]
    wanted = [given_by(*call) for call in calls]
    for size in (1, 2, 4, 5, 6, *range(50, 70)):
        nonograde._first_buffer = size
        given = [given_by(*call) for call in calls]
        compared.results.compare("a first buffer of", size, wanted, given)
    nonograde._first_buffer = usual
    for size in ((256, 256), (2, 256), (256, 2)):
        text = many_rows(*size)
        compared.solve("wide.nin", text)
        compare_lines(compared.results, "wide.nin", compared.program.printed("lines", "wide.nin"), nonograde.lines(text, "nin"))
        nonograde._first_buffer = nonograde._library.nonograde_buffer_size(*size)
        unknown = "?" * (size[0] * size[1])
        for call, *words in ((nonograde.solve,), (nonograde.lines,), (nonograde.close, unknown), (nonograde.extend, unknown)):
            times = times_called(call, text, "nin", *words)
            compared.results.compare("how often the library is called", (call.__name__, size), 1, times)
        nonograde._first_buffer = usual
    text = long_texts()
    wanted = compared.program.printed_of("long.non", text.encode(), "convert", "--to", "non").decode()
    compared.results.compare("convert", "long.non", wanted, nonograde.convert(text, "non", "non"))
    compared.results.compare("how often the library is called", "long.non", 2, times_called(nonograde.convert, text, "non", "non"))


def times_called(call, *words):
    """How often a call of the package calls the library."""
    count, name = 0, f"nonograde_{call.__name__}"
    of_library = getattr(nonograde._library, name)

    def counted(*arguments):
        nonlocal count
        count += 1
        return of_library(*arguments)

    setattr(nonograde._library, name, counted)
    try:
        call(*words)
    finally:
        setattr(nonograde._library, name, of_library)
    return count


def compare_faults(compared):
    """Compares the faults of texts with those of the program, and their sentences with `nonograde.h`."""
    clues = "rows\n1\ncolumns\n1\n"
    texts = {
        "b.nin": "",
        "c.nin": "1 257\n",
        "d.non": "width 1\nheight 1\n",
        "e.non": f"width 1\n1\nheight 1\n{clues}",
        "f.non": f"width 1\nwidth 1\nheight 1\n{clues}",
        "g.nin": "1 1\n1\n",
        "h.nin": "1 1\n1\nx\n",
        "i.non": f"width 1\nheight 1\n{clues}goal 2\n",
        "j.mk": "\n" * 1048577,
    }
    words = set()
    for name, text in texts.items():
        compared.solve(name, text)
        wanted = given_by(nonograde.solve, text, Path(name).suffix)
        compared.results.compare("lines", name, wanted, given_by(nonograde.lines, text, Path(name).suffix))
        for call in (nonograde.close, nonograde.extend):
            compared.results.compare(call.__name__, name, wanted, given_by(call, text, Path(name).suffix, "x"))
        words.add(str(wanted).partition(":")[0])
    words.add(given_by(nonograde.close, TWO, "nin", "x"))
    flat = "1 2\n1\n#\n1\n2\n"
    compared.program.write("flat.mk", flat.encode())
    wanted = compared.program.printed("convert", "--to", "nin", "flat.mk")
    compared.results.compare("convert", "flat.mk", wanted, given_by(nonograde.convert, flat, "mk", "nin"))
    others = {"BufferTooSmall", "BadSetting", "UnknownFormat", "NoMemory"}
    compared.results.compare("the faults", "seen", set(nonograde.SENTENCES) - others, words | {wanted})


def check_faults(results, header):
    """Checks what a fault says, and what wrong arguments raise."""
    results.compare("the sentences", "of nonograde.h", [*status_comments(header).items()], [*nonograde.SENTENCES.items()])
    for name, words in (("verdict", nonograde.VERDICTS), ("grade", nonograde.GRADES), ("goal", nonograde.GOALS)):
        numbers = {word.upper(): number for number, word in enumerate(words)}
        results.compare("the words", f"of the {name}s of nonograde.h", enum_of_header(header, name), numbers)
    fault = nonograde.Fault("BadNumber", 3)
    results.compare("a fault", "is a ValueError", True, isinstance(fault, ValueError))
    for one in (fault, nonograde.Fault("NoSize"), nonograde.Fault("BadGoal", 7), nonograde.Fault("BadSetting", None, "x is odd")):
        facts, again = [
            (it.word, it.line, it.sentence, str(it)) for it in (one, pickle.loads(pickle.dumps(one)))
        ]
        results.compare("a fault", "pickled", facts, again)
    results.compare("a fault", "of a line", "line 7: the goal doesn't fit the size", nonograde.Fault("BadGoal", 7).sentence)
    solve, lines, convert, solve_clues = nonograde.solve, nonograde.lines, nonograde.convert, nonograde.solve_clues
    grade, report, check, close, extend = (
        nonograde.grade, nonograde.report, nonograde.check, nonograde.close, nonograde.extend
    )
    wrong_types = {
        "text": [
            *((solve, text, "nin") for text in (5, [1], None, Path("a.nin"))),
            (grade, 5, "nin"),
            (report, 5, "nin"),
            (check, 5, "nin"),
            (lines, None, "nin"),
            (close, 5, "nin", "????"),
            (extend, 5, "nin", "????"),
            (convert, 5, "nin", "mk"),
        ],
        "format": [
            *((solve, TWO, 5), (lines, TWO, None), (convert, TWO, b"nin", "mk")),
            *((call, TWO, 5, "????") for call in (close, extend)),
        ],
        "grid": [
            (call, TWO, "nin", grid) for call in (close, extend) for grid in (5, None, [1], ["??", None], [b"??", b"??"])
        ],
        "by": [(close, TWO, "nin", "????", by) for by in (0, None)],
        "to": [(convert, TWO, "nin", 1)],
        "guesses": [
            *((solve, TWO, "nin", limit) for limit in (1.5, "5", None)),
            *((extend, TWO, "nin", "????", limit) for limit in (1.5, "5", None)),
        ],
        "pick": [
            *((solve, TWO, "nin", 9, rule) for rule in (0, None)),
            *((extend, TWO, "nin", "????", 9, rule) for rule in (0, None)),
        ],
        "name": [(report, TWO, "nin", 9, "first", name) for name in (0, None)],
        "rows": [(solve_clues, clues, [[1]]) for clues in (5, [1], ["1"], [[1.5]])],
        "columns": [(solve_clues, [[1]], clues) for clues in (None, [[None]])],
    }
    limits = (-1, nonograde.MAX_GUESSES + 1, 2**32, 2**32 + 1, 2**64, -(2**32))
    wrong_values = {
        "guesses": [
            *((call, TWO, "nin", limit) for call in (solve, grade, report, check) for limit in limits),
            *((extend, TWO, "nin", "????", limit) for limit in limits),
        ],
        "pick": [
            *((call, TWO, "nin", 9, rule) for call in (solve, grade, report, check) for rule in ("last", "")),
            *((extend, TWO, "nin", "????", 9, rule) for rule in ("last", "")),
        ],
        "format": [
            *((call, TWO, format) for call in (solve, grade, report, check, lines) for format in ("txt", "", "a.nin")),
            (convert, TWO, "txt", "mk"),
            *((call, TWO, "txt", "????") for call in (close, extend)),
        ],
        "by": [(close, TWO, "nin", "????", by) for by in ("search", "", "line")],
        "to": [(convert, TWO, "nin", format) for format in ("txt", "")],
    }
    for type, cases in ((TypeError, wrong_types), (nonograde.Fault, wrong_values)):
        for name, calls in cases.items():
            for call, *words in calls:
                raised, said = raised_by(call, *words)
                is_named = str(said).removeprefix("BadSetting: ").startswith((f"{name} is ", f"{name}["))
                results.compare("what is raised", (call.__name__, words, said), (type, True), (raised, is_named))
    for clues, place in (([[1], [0, 1]], "rows[1]"), ([[-1], [1]], "rows[0]"), ([[1], [257]], "rows[1]")):
        said = f"BadNumber: {place} is no clue"
        results.compare("solve_clues", clues, said, raised_by(solve_clues, clues, [[1], [1]])[1])
        results.compare("solve_clues", clues, said.replace("rows", "columns"), raised_by(solve_clues, [[1], [1]], clues)[1])
    results.compare("solve_clues", "without rows", "BadSize", given_by(solve_clues, [], [[1]]))


def check_words(results):
    """Checks that formats are taken in either case, as endings too, and texts of all types."""
    wanted = nonograde.solve(TWO, "nin")
    for format in ("NIN", ".nin", ".NIN", ".Nin", Path("two.NIN").suffix):
        results.compare("solve", format, wanted, given_by(nonograde.solve, TWO, format))
        results.compare("lines", format, nonograde.lines(TWO, "nin"), given_by(nonograde.lines, TWO, format))
        to = format.lower().replace("nin", "MK")
        results.compare("convert", format, nonograde.convert(TWO, "nin", "mk"), given_by(nonograde.convert, TWO, format, to))
    for text in (TWO.encode(), bytearray(TWO.encode()), memoryview(TWO.encode())):
        results.compare("solve", type(text), wanted, given_by(nonograde.solve, text, "nin"))
    results.compare("solve", "a limit of another type", 1, nonograde.solve(TWO, "nin", guesses=True).guesses)


def check_bytes(compared):
    """Checks texts that aren't UTF-8."""
    compared.all_calls("cafe.non", LATIN_1)
    text = nonograde.read(compared.folder / "cafe.non")
    compared.results.compare("read", "cafe.non", (LATIN_1, "non"), text)
    converted = given_by(nonograde.convert, *text, "non")
    compared.results.compare("convert", "cafe.non", True, isinstance(converted, bytes) and b'"Caf\xe9"' in converted)
    converted = given_by(nonograde.convert, LATIN_1.decode("latin-1"), "non", "non")
    compared.results.compare("convert", "a title in UTF-8", True, 'title "Café"' in converted)


def check_results(results):
    """Checks that results can't be changed, and have the hash of their fields."""
    solve, grade, lines, extend = nonograde.solve, nonograde.grade, nonograde.lines, nonograde.extend
    for call, field, *words in ((solve, "verdict"), (grade, "verdict"), (lines, "word"), (extend, "verdict", "????")):
        one, same = call(TWO, "nin", *words), call(TWO, "nin", *words)
        results.compare("results", call.__name__, (True, 1), (one == same, len({one, same})))
        raised = raised_by(setattr, one, field, "none")[0]
        results.compare("a field", call.__name__, True, raised is not None and issubclass(raised, AttributeError))
        results.compare("a result", "pickled", one, pickle.loads(pickle.dumps(one)))
    word, rows = lines(TWO, "nin")
    results.compare("lines", "unpacked", ("open", ("??", "??")), (word, rows))
    one, same = nonograde.check(TWO, "nin"), nonograde.check(TWO, "nin")
    results.compare("results", "check", (True, 1), (one == same, len({one, same})))
    results.compare("str", "of extend", str(solve(TWO, "nin")), str(extend(TWO, "nin", "????")))


def colours_of(picture):
    """The colour of each cell of a picture that isn't white, and its size in cells."""
    frame, *cells = ElementTree.fromstring(picture)
    size = int(frame.get("width")), int(frame.get("height"))
    return size, {(int(cell.get("x")), int(cell.get("y"))): cell.get("fill") for cell in cells}


def check_pictures(results):
    """Checks the pictures for notebooks."""
    pictures = {
        "one": nonograde.solve("3 1\n1 1\n1\n0\n1\n", "nin"),
        "several": nonograde.solve(TWO, "nin"),
        "extended": nonograde.extend(TWO, "nin", "????"),
        "open": nonograde.lines(TWO, "nin"),
        "none": nonograde.solve("1 1\n1\n0\n", "nin"),
    }
    two = (2, 2), {(0, 0): "firebrick", (1, 0): "lightpink", (0, 1): "lightpink", (1, 1): "firebrick"}
    wanted = {
        "one": ((3, 1), {(0, 0): "black", (2, 0): "black"}),
        "several": two,
        "extended": two,
        "open": ((2, 2), {(x, y): "silver" for x in range(2) for y in range(2)}),
    }
    for name, result in pictures.items():
        picture = result._repr_svg_()
        results.compare("the picture", name, wanted.get(name), colours_of(picture) if picture else None)


def check_loading(results, top):
    """Checks which library is loaded, that calls release the GIL, and how an import without it fails."""
    mapped = {line.split()[-1] for line in Path("/proc/self/maps").read_text().splitlines() if "libnonograde" in line}
    folder = os.environ.get("NONOGRADE_LIBRARY") or Path(nonograde.__file__).parent
    results.compare("the library", "that is loaded", {str((Path(folder) / "libnonograde.so").resolve())}, mapped)
    results.compare("the library", "releases the GIL", ctypes.CDLL, type(nonograde._library))
    declared = re.findall(r'NONOGRADE_VERSION "(.*)"', (top / "include/nonograde.h").read_text())
    results.compare("the version", "of nonograde.h", declared, [nonograde.version()])
    results.compare("the version", "of the package", nonograde.version(), nonograde.__version__)
    with tempfile.TemporaryDirectory() as folder:
        for text in (None, "no library"):
            if text:
                (Path(folder) / "libnonograde.so").write_text(text)
            surroundings = {**os.environ, "NONOGRADE_LIBRARY": folder}
            command = [sys.executable, "-c", "import nonograde"]
            ran = subprocess.run(command, env=surroundings, capture_output=True, text=True, check=False)
            said = (ran.stderr.splitlines() or [""])[-1]
            is_helpful = said.startswith("ImportError: ") and folder in said and "`make library`" in said
            results.compare("import", said, True, is_helpful)


def page_examples(page):
    """The examples in Python of a page, each with what it prints."""
    return re.findall(r"^```python\n(.*?)^```\n(?:\nIt prints\n\n```\n(.*?)^```\n)?", page, re.M | re.S)


def check_page(results, page):
    """Runs the examples of the page. The one that serves is called as a client does."""
    for code, wanted in page_examples(page):
        names, printed = {"__name__": "example"}, io.StringIO()
        with contextlib.redirect_stdout(printed):
            exec(compile(code, "library.md", "exec"), names)  # the page is part of the repository
        results.compare("the example", code, wanted, printed.getvalue())
        if "Handler" in names:
            check_server(results, names["Handler"])


def check_server(results, handler):
    """Posts texts to a server with a handler."""
    server = ThreadingHTTPServer(("127.0.0.1", 0), handler)
    threading.Thread(target=server.serve_forever, daemon=True).start()
    try:
        for path, text, wanted in (
            ("nin", TWO, (200, {"verdict": "several", "grade": "search", "solutions": [["#.", ".#"], [".#", "#."]]})),
            ("nin", "1 1\n1\nx\n", (400, {"word": "BadNumber", "line": 3, "sentence": "line 3 is no clue"})),
            ("txt", TWO, (400, {"word": "BadSetting", "line": None, "sentence": NO_FORMAT})),
        ):
            results.compare("the server", path, wanted, answer_of(f"http://127.0.0.1:{server.server_port}/puzzle.{path}", text))
    finally:
        server.shutdown()
        server.server_close()


def answer_of(address, text):
    """The status and the JSON of a server's answer."""
    opener = urllib.request.build_opener(urllib.request.ProxyHandler({}))
    try:
        with opener.open(urllib.request.Request(address, text.encode()), timeout=60) as answer:
            return answer.status, json.load(answer)
    except urllib.error.HTTPError as error:
        with error:
            return error.code, json.load(error)


def main(program, top):
    top, results = Path(top), Results()
    tried = doctest.testmod(nonograde)
    results.passed, results.failed = tried.attempted - tried.failed, tried.failed
    header = (top / "include/nonograde.h").read_text()
    with tempfile.TemporaryDirectory() as folder, contextlib.suppress(TooManyFailures):
        compared = Compared(results, program, folder)
        check_loading(results, top)
        compare_header(results, top)
        check_faults(results, header)
        check_words(results)
        check_results(results)
        check_cells(results)
        compare_closed(results)
        compare_extended(results, top / "puzzles")
        check_pictures(results)
        check_bytes(compared)
        compare_buffers(compared)
        compare_faults(compared)
        compare_settings(compared)
        compare_puzzles(compared, top / "puzzles")
        compare_made(compared)
        check_page(results, (top / "docs/library.md").read_text())
    print(f"{results.passed} passed, {results.failed} failed")
    return results.failed != 0


if __name__ == "__main__":
    sys.exit(main(*sys.argv[1:]))
