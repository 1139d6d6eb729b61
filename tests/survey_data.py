#!/usr/bin/env python3
"""A second implementation of a survey in CSV, in JSON and in HTML.

It is written from what `docs/formats.md` says of them, and shares no code with the program, so that a test can compare the
two. It takes texts apart by `readers.py`, solves puzzles by `solving.py`, and has its messages from `findings.py`.

Usage: survey_data.py [--html | --csv] [FILE]...

Prints the survey of these files in JSON, or as a page (`--html`), or in CSV.

>>> entries = [(b"a,b.mk", b"1 1\\n1\\n#\\n1\\n"), (b"d.mk", b"")]
>>> print(csv_survey(entries, Options()).decode(), end="")
number,name,width,height,verdict,grade,line_cells,trial_cells,guesses,goal,fault,fault_line,message,title,by
1,"a,b.mk",1,1,one,line,1,1,0,absent,,,,,
2,d.mk,,,,,,,,,NoSize,,no line with two sizes is at the top,,
>>> json_survey([], Options())
b'{"totals":{"entries":0,"line":0,"none":0,"one":0,"refused":0,"search":0,"several":0,"trials":0,"unsettled":0}}\\n'
"""

import json
import os
import re
import sys
from collections import Counter

import findings
import readers
import solving
from findings import Options

CSV_FIELDS = (
    "number name width height verdict grade line_cells trial_cells guesses goal fault fault_line message title by"
).split()
TEXTS = ("by", "catalogue", "copyright", "license", "title")
OF_PUZZLE = ("columns", "goal", "grade", "guesses", "height", "line_cells", "misfits", "rows", "solutions", "sums")
OF_PUZZLE += ("trial_cells", "verdict", "width", *TEXTS)  # the members that are null if an entry is refused
COUNTED = ("line", "none", "one", "refused", "search", "several", "trials", "unsettled")
PAGE = os.path.join(os.path.dirname(os.path.dirname(os.path.abspath(__file__))), "page", "page.html")
FIRST, LAST = b'<script type="application/json" id="survey">\n', b"</script>\n"  # above and below the page's data


def message_of(name, text, options):
    """Returns the first sentence that `nonograde check` prints on an entry, or None.

    >>> message_of(b"a.mk", b"1 1\\n1\\n#\\n0\\n", Options())
    'no solution: the rows fill 1 cell, the columns 0'
    """
    printed, _ = findings.entry(name, text, options)
    start = re.escape(readers.printed_name(name).decode("latin-1"))
    match = re.match(rf"{start}(?::\d+)?: (?:error|warning): (.*)", printed)
    return match and match[1]


def misfits_of(puzzle):
    """Returns the clues that don't fit their lines, those of the rows first."""
    return [
        {"axis": axis, "cells": cells, "line": line, "needed": sum(clue) + len(clue) - 1}
        for axis, clues, cells in (("row", puzzle.rows, puzzle.width), ("column", puzzle.columns, puzzle.height))
        for line, clue in enumerate(clues)
        if sum(clue) + len(clue) - 1 > cells
    ]


def rows_of_goal(puzzle):
    """Returns the rows of a puzzle's goal, or None if it has none."""
    if puzzle.goal is None:
        return None
    cells = puzzle.goal.decode().translate(str.maketrans("01", solving.BLANK + solving.FILLED))
    return [cells[start : start + puzzle.width] for start in range(0, len(cells), puzzle.width)]


def differing_rows(solutions):
    """Returns, if there are two solutions, their rows with `*` for each cell in which they differ and `.` for any other.

    >>> differing_rows([("##", ".#"), ("##", "#.")]), differing_rows([("#",)])
    (['..', '**'], None)
    """
    if len(solutions) < 2:
        return None
    return ["".join(".*"[cell != other] for cell, other in zip(*rows)) for rows in zip(*solutions)]


def refused_members(number, name, fault, message):
    """Returns what is known of a refused entry. Its texts are bytes."""
    members = dict.fromkeys((*OF_PUZZLE, "differing", "goal_rows"))
    return {**members, "number": number, "name": name, "fault": fault.word, "fault_line": fault.line, "message": message}


def graded_members(number, name, puzzle, report, message):
    """Returns what is known of a graded entry: a `readers.Puzzle` and its `solving.Report`. Its texts are bytes."""
    texts = {keyword.decode(): text for keyword, text in puzzle.texts}
    return {
        **{keyword: texts.get(keyword) for keyword in TEXTS},
        "columns": puzzle.columns,
        "differing": differing_rows(report.solutions),
        "fault": None,
        "fault_line": None,
        "goal": readers.goal_word(puzzle),
        "goal_rows": rows_of_goal(puzzle),
        "grade": report.grade,
        "guesses": report.spent,
        "height": puzzle.height,
        "line_cells": report.line_known,
        "message": message,
        "misfits": misfits_of(puzzle),
        "name": name,
        "number": number,
        "rows": puzzle.rows,
        "solutions": report.solutions,
        "sums": {"columns": sum(map(sum, puzzle.columns)), "rows": sum(map(sum, puzzle.rows))},
        "trial_cells": report.trial_known,
        "verdict": report.verdict,
        "width": puzzle.width,
    }


def members_of(number, name, text, options):
    """Returns what is known of an entry, as a dict with all keys of its JSON object. Its texts are bytes."""
    message = message_of(name, text, options)
    try:
        puzzle = readers.read_entry(name, text)
    except readers.Fault as fault:
        return refused_members(number, name, fault, message)
    solved = solving.Puzzle(puzzle.width, puzzle.height, puzzle.rows, puzzle.columns)
    return graded_members(number, name, puzzle, solving.report(solved, options.guesses, options.pick), message)


# JSON


def json_line(members):
    """Returns an object as a line of JSON. Bytes that aren't UTF-8 are replaced.

    >>> json_line({"name": b"a\\xff\\n<b>", "by": None})
    b'{"by":null,"name":"a\\xef\\xbf\\xbd\\\\n<b>"}\\n'
    """
    decoded = {key: value.decode("utf-8", "replace") if isinstance(value, bytes) else value for key, value in members.items()}
    return json.dumps(decoded, sort_keys=True, separators=(",", ":"), ensure_ascii=False).encode() + b"\n"


def totals_line(found):
    """Returns the last line for entries of which these members are known."""
    words = Counter(word for members in found for word in (members["verdict"] or "refused", members["grade"]))
    return json_line({"totals": {"entries": len(found), **{word: words[word] for word in COUNTED}}})


def json_text(found):
    """Returns the survey in JSON of entries of which these members are known."""
    return b"".join(map(json_line, found)) + totals_line(found)


def json_survey(entries, options):
    """Returns the survey in JSON of entries, which are pairs of a name and a text."""
    return json_text([members_of(number, *entry, options) for number, entry in enumerate(entries, 1)])


def escaped(text):
    """Returns lines of JSON as they stand in the page: without any `<`."""
    return text.replace(b"<", b"\\u003c")


def page_parts():
    """Returns the page of the repository as what stands above its data, the data, which are a sample, and what stands below."""
    with open(PAGE, "rb") as file:
        head, first, rest = file.read().partition(FIRST)
    return head + first, rest[: rest.index(LAST)], rest[rest.index(LAST) :]


def html_text(found):
    """Returns the page of a survey of entries of which these members are known."""
    head, _, tail = page_parts()
    return head + escaped(json_text(found)) + tail


# CSV


def csv_field(value):
    """Returns a member as a field, in quotes if it has a comma, a quote, a CR or an LF.

    >>> csv_field(b'a "b" c'), csv_field(None), csv_field(12)
    (b'"a ""b"" c"', b'', b'12')
    """
    text = b"" if value is None else value if isinstance(value, bytes) else str(value).encode()
    return b'"%s"' % text.replace(b'"', b'""') if re.search(rb'[,"\r\n]', text) else text


def csv_row(members):
    """Returns the record of an entry of which these members are known."""
    return b",".join([csv_field(members[field]) for field in CSV_FIELDS]) + b"\n"


def csv_text(found):
    """Returns the survey in CSV of entries of which these members are known."""
    return ",".join(CSV_FIELDS).encode() + b"\n" + b"".join(map(csv_row, found))


def csv_survey(entries, options):
    """Returns the survey in CSV of entries, which are pairs of a name and a text."""
    return csv_text([members_of(number, *entry, options) for number, entry in enumerate(entries, 1)])


def main(words):
    """Prints the survey of the files that the words name, in the form that the first of them may name."""
    forms = {"--html": html_text, "--csv": csv_text}
    form = forms[words.pop(0)] if words[:1] and words[0] in forms else json_text
    if any(word.startswith("-") for word in words):
        sys.exit(__doc__.split("\n\n")[2])
    found = []
    for number, word in enumerate(words, 1):
        with open(word, "rb") as file:
            found.append(members_of(number, os.fsencode(word), file.read(), Options()))
    sys.stdout.buffer.write(form(found))


if __name__ == "__main__":
    main(sys.argv[1:])
