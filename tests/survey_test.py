#!/usr/bin/env python3
"""Compares what `nonograde survey` prints as csv, as JSON and as a page with what `survey_data.py` says that it prints.

Usage: survey_test.py --program PROGRAM [--library FOLDER]

The entries are the puzzles of `puzzles/`, the files of `traps.py`, and 10,000 made puzzles of up to 6 by 6, a tenth of them
with a mistake, whose names and texts have odd bytes. They are surveyed as FILEs and on standard input, with several options,
and on 1, 4 and 16 lanes.

The csv is also read by Python's `csv` and by the shell of SQLite: each record has to have the 15 cells of its entry. The
JSON is also read by Python's `json`, and its facts are compared with what `survey --show` prints and, with `--library`, with
what the library in that folder answers. Other comparisons are those of text with what a survey prints without `--format`, and
of how a survey ends that is refused, or can't be written.

What is printed of an entry counts once. The last line is `N passed, M failed`, and the exit status is 1 if a comparison failed.
"""

import csv
import io
import json
import os
import random
import re
import sqlite3
import subprocess
import sys
import tempfile
from functools import lru_cache

import readers
import solving
import survey_data
from comparing import run_test
from findings import Options
from solving_test import drawn_puzzles
from traps import FILES

PUZZLES = os.path.join(os.path.dirname(os.path.dirname(os.path.abspath(__file__))), "puzzles")
COUNT = 10_000
LANES = (1, 4, 16)
OPTIONS = (Options(), Options(guesses=3, pick="most"))
TOTALS = ("entries", "refused", "none", "one", "several", "unsettled", "line", "trials", "search")

# Pieces of odd names and texts. A FILE has to be UTF-8, and a line of a collection can't have an LF.
ODD = (b"a", b" b", b",", b'"', b'""', b"'", b"\r", b"\t", b"\\", b"<script>", b"<!--", b"&lt;", b"=1+1", b"1e3", b"NULL", b"@")
ODD += (b"\x01", b"\x1b", b"\x7f", b"\xc2\x85", b"\xc3\xa9", b"\xe2\x80\xa8", b"\xef\xbb\xbf", b"\xf0\x9f\x98\x80")
ODD_FILE = (*ODD, b"\n", b"\r\n", b"\n\n")
ODD_ENTRY = (*ODD, b"</script>", b"\0", b"\xff", b"\xc3", b"\x80", b"\xe2\x80", b"\xed\xa0\x80", b"\xc0\xaf", b"\xf4\x90\x80")

# Entries


def puzzle_entries():
    """Returns the puzzles of the repository."""
    entries = []
    for name in sorted(os.listdir(PUZZLES)):
        if os.path.isfile(os.path.join(PUZZLES, name)):
            with open(os.path.join(PUZZLES, name), "rb") as file:
                entries.append((os.fsencode(name), file.read()))
    return entries


def trap_entries():
    """Returns the files of `traps.py`."""
    return [(name.encode(), text) for name, text in FILES.items()]


def odd_text(source, pieces):
    """Returns some odd pieces, drawn from a source, as one text."""
    return b"".join(source.choices(pieces, k=source.randrange(6)))


def goal_of(puzzle, number):
    """Returns a goal for a puzzle: each third time none, and of the others half are another grid than its solution, if it
    has one."""
    if number % 3 == 0:
        return None
    solutions = solving.report(puzzle, 50, "first").solutions
    cells = "".join(solutions[0]) if solutions else "." * (puzzle.width * puzzle.height)
    goal = bytearray(cells.translate(str.maketrans(".#", "01")).encode())
    goal[number % len(goal)] ^= number % 2
    return bytes(goal)


@lru_cache(maxsize=None)
def made_entries(pieces):
    """Returns the made entries, whose names have some of these pieces."""
    source, entries = random.Random(83), []
    for number, puzzle in enumerate(drawn_puzzles(COUNT), 1):
        format = readers.FORMATS[max(number % 6 - 3, 0)]
        texts = [(keyword, odd_text(source, ODD_ENTRY)) for keyword in readers.TEXT_KEYWORDS if source.randrange(3)]
        described = readers.Puzzle(*puzzle, tuple(texts), goal_of(puzzle, number))
        try:
            text = readers.written(format, described)
        except readers.Fault:
            text = b"Ambiguous"
        if number % 10 == 0:
            lines = text.split(b"\n")
            line = source.randrange(len(lines))
            lines[line : line + 1] = [b"1" + odd_text(source, ODD_ENTRY)] if number % 20 else []
            text = b"\n".join(lines)
        entries.append((b"%d%s.%s" % (number, odd_text(source, pieces), format.encode()), text))
    return entries


def collection_of(entries):
    """Returns a collection of these entries."""
    return b"".join(b"@ %s\n%s\n" % entry for entry in entries)


@lru_cache(maxsize=None)
def members_of_text(ending, text, options):
    """Returns what is known of an entry, but its number and its name, of which only the ending is given."""
    return survey_data.members_of(0, b"a" + ending, text, options)


def found_of(entries, options):
    """Returns what is known of entries."""
    found = []
    for number, (name, text) in enumerate(entries, 1):
        ending = name[name.rfind(b".") :].lower() if b"." in name else b""
        found.append({**members_of_text(ending, text, options), "number": number, "name": name})
    return found


# Surveys


def words_of(options):
    """Returns the words of a command line with these options."""
    return ["survey", "--guesses", str(options.guesses), "--pick", options.pick]


def pieces_of(format, found):
    """Returns what is printed of entries in a format: what stands before them, a piece for each, and what stands behind."""
    lines = list(map(survey_data.json_line, found))
    if format == "csv":
        return [survey_data.csv_text([]), *map(survey_data.csv_row, found), b""]
    if format == "json":
        return [b"", *lines, survey_data.totals_line(found)]
    head, _, tail = survey_data.page_parts()
    return [head, *map(survey_data.escaped, lines), survey_data.totals_line(found) + tail]


def compare_pieces(results, what, wanted, printed):
    """Compares what is printed, piece by piece, up to the first one that is another. Returns whether all are equal."""
    start = 0
    for number, piece in enumerate(wanted):
        given = printed[start : start + len(piece)]
        results.compare(what, f"piece {number}", piece, given)
        if given != piece:
            return False
        start += len(piece)
    results.compare(what, "behind the last piece", b"", printed[start:])
    return start == len(printed)


class Surveys:
    """The surveys of some entries with some options, on standard input or as FILEs, whose names are the words."""

    def __init__(self, results, program, options, entries, collection=None):
        self.results, self.program = results, program
        self.entries, self.found = entries, found_of(entries, options)
        self.what = f"{len(entries)} {'FILEs' if collection is None else 'entries'}, {' '.join(words_of(options))}"
        self._words, self._text = words_of(options), collection or b""
        self._files = [b"--", *(name for name, _ in entries)] if collection is None else []

    def printed(self, *words):
        """Returns what such a survey prints with these words. It has to end with status 0 and no line on standard error."""
        status, printed, reported = self.program.run(*self._words, *words, *self._files, text=self._text)
        self.results.compare(f"end, {self.what}", words, (0, b""), (status, reported))
        return printed

    def compare(self):
        """Compares the survey in all formats, and on several lanes."""
        plain = self.printed()
        self.results.compare("text", self.what, plain, self.printed("--format", "text"))
        shown = self.printed("--show")
        self.results.compare("text with --show", self.what, shown, self.printed("--show", "--format=text"))
        for format in ("csv", "json", "html"):
            printed = self.printed("--format", format)
            is_wanted = compare_pieces(self.results, f"{format}, {self.what}", pieces_of(format, self.found), printed)
            for lanes in LANES:
                given = self.printed("--lanes", str(lanes), "--format", format)
                self.results.compare(f"{format} on {lanes} lanes", self.what, True, given == printed)
            if is_wanted and format == "csv":
                compare_records(self.results, self.what, self.found, printed)
            elif is_wanted and format == "json":
                compare_facts(self.results, self.what, printed, shown)

    def compare_with_library(self, library, options, step):
        """Compares the JSON of each `step`th entry with what the library answers."""
        lines = self.printed("--format", "json").splitlines()
        for (name, text), line in list(zip(self.entries, lines))[::step]:
            members = json.loads(line)
            answer = library.solve(name, text, options.guesses, options.pick)
            wanted = text_of({**members, "number": 1}) if members["verdict"] else fault_of(members)
            self.results.compare("solve by the library", name, wanted, decoded(answer))
            answer = library.report(name, text, options.guesses, options.pick)
            wanted = first_entry(line.decode()) if members["verdict"] else fault_of(members)
            self.results.compare("report by the library", name, wanted, decoded(answer))
            answer = library.convert(name, text, "non")
            wanted = non_of(members) if members["verdict"] else fault_of(members)
            self.results.compare("convert by the library", name, wanted, decoded(answer))


# CSV


def cells_of(members):
    """Returns the cells of an entry's record, as bytes."""
    values = [members[field] for field in survey_data.CSV_FIELDS]
    return [b"" if value is None else value if isinstance(value, bytes) else str(value).encode() for value in values]


def compare_records(results, what, found, printed):
    """Compares what Python and SQLite read from csv with what is known of entries."""
    wanted = [[field.encode() for field in survey_data.CSV_FIELDS], *map(cells_of, found)]
    lines = io.StringIO(printed.decode("latin-1"), newline="")
    given = [[cell.encode("latin-1") for cell in row] for row in csv.reader(lines, strict=True)]
    compare_rows(results, f"csv by Python, {what}", wanted, given)
    # The shell of SQLite ends a text at its first NUL.
    wanted = [[cell.partition(b"\0")[0] for cell in row] for row in wanted[1:]]
    compare_rows(results, f"csv by SQLite, {what}", wanted, imported(results, what, printed))


def compare_rows(results, what, wanted, given):
    """Compares rows of cells."""
    results.compare("number of rows", what, len(wanted), len(given))
    for number, (row, other) in enumerate(zip(wanted, given)):
        results.compare(what, f"row {number}", row, other)


def imported(results, what, printed):
    """Returns the rows that the shell of SQLite imports from csv, below the first line. It may not say anything."""
    with tempfile.TemporaryDirectory() as folder:
        with open(os.path.join(folder, "survey.csv"), "wb") as file:
            file.write(printed)
        columns = ", ".join(f'"{field}" text' for field in survey_data.CSV_FIELDS)
        script = f"create table survey ({columns});\n.import --csv --skip 1 survey.csv survey\n"
        words = ["sqlite3", "-batch", "survey.db"]
        ran = subprocess.run(words, cwd=folder, input=script, capture_output=True, text=True, check=False)
        results.compare("import by SQLite", what, (0, "", ""), (ran.returncode, ran.stdout, ran.stderr))
        data = sqlite3.connect(os.path.join(folder, "survey.db"))
        data.text_factory = bytes
        rows = [list(row) for row in data.execute("select * from survey order by rowid")]
        data.close()
        return rows


# JSON


def decoded(answer):
    """Returns an answer of the library as text, in which bytes that aren't UTF-8 are replaced. A fault is a text already."""
    return answer.decode("utf-8", "replace") if isinstance(answer, bytes) else answer


def first_entry(line):
    """Returns the line of JSON of an entry as if that were the first.

    >>> first_entry('{"name":"number","number":12,"rows":[[1]]}')
    '{"name":"number","number":1,"rows":[[1]]}\\n'
    """
    return re.sub(r'(?<=,"number":)\d+(?=,"rows":)', "1", line) + "\n"


def fault_of(members):
    """Returns the fault of an entry as it is printed."""
    line = members["fault_line"]
    return members["fault"] if line is None else f"{members['fault']}:{line}"


def text_of(members):
    """Returns what `survey --show` prints of an entry whose JSON has these members.

    >>> text_of({"number": 3, "name": "a\\n.mk", "verdict": None, "fault": "BadNumber", "fault_line": 2})
    '3 refused BadNumber:2 a?.mk\\n'
    """
    name = members["name"].translate(dict.fromkeys(readers.UNPRINTED, "?"))
    if members["verdict"] is None:
        return f"{members['number']} refused {fault_of(members)} {name}\n"
    words = [members[key] for key in ("verdict", "grade", "line_cells", "trial_cells", "guesses", "goal")]
    line = " ".join(map(str, (members["number"], f"{members['width']}x{members['height']}", *words, name)))
    return line + "\n" + "".join("\n".join(rows) + "\n\n" for rows in members["solutions"])


def totals_of(members):
    """Returns the last line of a survey whose JSON ends with these totals."""
    return " ".join(f"{word} {members['totals'][word]}" for word in TOTALS) + "\n"


def non_of(members):
    """Returns the text in `.non` of a puzzle whose JSON has these members."""
    texts = [(word, members[word.decode()]) for word in readers.TEXT_KEYWORDS]
    texts = tuple((word, text.encode()) for word, text in texts if text is not None)
    rows = members["goal_rows"]
    goal = rows and "".join(rows).translate(str.maketrans(".#", "01")).encode()
    clues = members["rows"], members["columns"]
    return readers.written("non", readers.Puzzle(members["width"], members["height"], *clues, texts, goal)).decode()


def compare_facts(results, what, printed, shown):
    """Compares the facts of lines of JSON with what `survey --show` prints."""
    *entries, totals = map(json.loads, printed.splitlines())
    wanted = [text_of(members).encode() for members in entries]
    shown = shown.decode("utf-8", "replace").encode()
    compare_pieces(results, f"facts of JSON, {what}", [*wanted, totals_of(totals).encode()], shown)


# Ends


def compare_ends(results, program, entries):
    """Compares how a survey ends that is refused, or can't be written."""
    collection = collection_of(entries)
    for format in ("csv", "json", "html"):
        for words in (["--show", "--format", format], [f"--format={format}", "--show"]):
            for files in ([], ["a.non"]):
                status, printed, reported = program.run("survey", *words, *files, text=collection)
                results.compare("--show", words, (2, b"", True), (status, printed, b"--show" in reported))
        for text in (b"", collection):
            with open("/dev/full", "wb") as full:
                status, _, reported = program.run("survey", "--format", format, text=text, output=full)
            results.compare(f"{format} to a full device", text[:20], (1, b"nonograde: Write\n"), (status, reported))
    for words in (["--format", "xml"], ["--format", "CSV"], ["--format="], ["--format", "csv", "--format", "csv"]):
        status, printed, reported = program.run("survey", *words, text=collection)
        results.compare("words", words, (2, b"", True), (status, printed, b"--format" in reported))


def test(results, program, library):
    """Makes all comparisons."""
    few = [puzzle_entries(), trap_entries()]
    for entries in [*few, made_entries(ODD_FILE)]:
        for name, text in entries:
            program.write(name, text)
        Surveys(results, program, Options(), entries).compare()
    for entries in [[], *few, made_entries(ODD_ENTRY)]:
        collection = collection_of(entries)
        cut = readers.cut(collection)
        for options in OPTIONS:
            surveys = Surveys(results, program, options, cut, collection)
            surveys.compare()
            if library:
                surveys.compare_with_library(library, options, 1 if len(entries) < COUNT else 10)
    compare_ends(results, program, few[0])


if __name__ == "__main__":
    sys.exit(run_test("Compares surveys in each format with a second implementation.", test))
