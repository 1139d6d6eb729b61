"""nonograde for Python: black-and-white nonograms graded, solved and checked, closed by line logic, completed, and converted.

The shared library `libnonograde.so` is looked for in the folder that NONOGRADE_LIBRARY names, else beside this file.

>>> heart = "5 4\\n1 1\\n5\\n3\\n1\\n1\\n3\\n3\\n3\\n1\\n"
>>> found = solve(heart, "nin")
>>> found.verdict, found.grade
('one', 'line')
>>> print(found)
.#.#.
#####
.###.
..#..
"""

from __future__ import annotations

import ctypes
import json
import operator
import os
import re
from collections.abc import Callable, Collection, Iterable
from dataclasses import dataclass
from pathlib import Path
from typing import Any, NamedTuple, NoReturn, SupportsIndex, TypeVar

__all__ = [
    "CLOSINGS", "FORMATS", "MAX_GUESSES", "PICKS", "Extended", "Fault", "Finding", "Graded", "Lines", "Solved", "Text",
    "check", "close", "convert", "extend", "grade", "lines", "read", "report", "solve", "solve_clues", "version",
]

FORMATS = ("non", "mk", "nin")
PICKS = ("first", "most")
CLOSINGS = ("lines", "trials")
MAX_GUESSES = 1_000_000
MAX_SIDE = 256
BUFFER_TOO_SMALL = 1

# The words of the library's numbers.
VERDICTS = ("none", "one", "several", "unsettled")
GRADES = ("line", "trials", "search")
GOALS = ("absent", "meets", "misses")

# The faults in the order of the numbers of their statuses, from 1 on, each with its sentence.
SENTENCES = {
    "BufferTooSmall": "the answer has more bytes than the buffer",
    "BadSetting": "a setting is out of its range",
    "UnknownFormat": "not returned: another format is a bad setting",
    "TooLong": "the text has more than 1,048,576 bytes",
    "NoSize": "the text has no size",
    "BadSize": "the width or the height is no number from 1 to 256",
    "NoSection": "a section of clues is missing",
    "BadLine": "a line belongs to no section, or is too long",
    "Twice": "a line repeats a keyword",
    "BadCount": "the number of clue lines doesn't fit the size",
    "BadNumber": "a line is no clue",
    "BadGoal": "the goal doesn't fit the size",
    "Ambiguous": "in .nin the text would be read with width and height exchanged",
    "NoMemory": "an allocation failed",
    "BadCells": "the cells don't fit the puzzle",
}

STATUSES = ("Ok", *SENTENCES)

# A finding without the name of a file, and the lines that show pictures.
FINDING = re.compile(r"(?::(\d+))?: (error|warning): (.*)\n((?: .*\n)*)")

AnyText = TypeVar("AnyText", str, bytes)
Row = Iterable[SupportsIndex]


class Fault(ValueError):
    """Why a call gives no answer: the fault's word, the number of the line that it is about, or None, and a sentence.

    >>> try:
    ...     solve("1 1\\n1\\nx\\n", "nin")
    ... except Fault as fault:
    ...     print(fault.word, fault.line, fault.sentence, sep=", ")
    ...     print(fault)
    BadNumber, 3, line 3 is no clue
    BadNumber:3: line 3 is no clue
    """

    def __init__(self, word: str, line: int | None = None, sentence: str | None = None) -> None:
        super().__init__(word, line, sentence)
        self.word = word
        self.line = line
        self.sentence = sentence or _sentence(word, line)

    def __str__(self) -> str:
        place = "" if self.line is None else f":{self.line}"
        return f"{self.word}{place}: {self.sentence}"


class _Solutions:
    """A result with up to two solutions. `str` gives these, a line for each row, with an empty line between two."""

    solutions: tuple[tuple[str, ...], ...]

    @property
    def rows(self) -> tuple[str, ...]:
        """The rows of the first solution; none if there is no solution.

        >>> solve("2 1\\n2\\n1\\n1\\n", "nin").rows
        ('##',)
        """
        return self.solutions[0] if self.solutions else ()

    @property
    def differing(self) -> list[tuple[int, int]]:
        """The cells, as pairs (column, row) from 0, in which two solutions differ.

        >>> solve("2 2\\n1\\n1\\n1\\n1\\n", "nin").differing
        [(0, 0), (1, 0), (0, 1), (1, 1)]
        """
        if len(self.solutions) < 2:
            return []
        pairs = zip(*self.solutions)
        return [(x, y) for y, rows in enumerate(pairs) for x, cells in enumerate(zip(*rows)) if cells[0] != cells[1]]

    def __str__(self) -> str:
        return "\n\n".join("\n".join(rows) for rows in self.solutions)

    def _repr_svg_(self) -> str | None:
        """The picture that notebooks show: the first solution, with the cells in red in which the second one differs."""
        return _svg(self.rows, self.differing)


@dataclass(frozen=True)
class Solved(_Solutions):
    """What is found of a puzzle. `str` gives the solutions, a line for each row, with an empty line between two.

    >>> print(solve("2 2\\n1\\n1\\n1\\n1\\n", "nin"))
    #.
    .#
    <BLANKLINE>
    .#
    #.
    """

    width: int
    height: int
    verdict: str  # none, one, several or unsettled
    grade: str  # line, trials or search
    known_by_lines: int  # how many cells are known after line logic; 0 if that finds a contradiction
    known_by_trials: int  # how many are known after trials; 0 if they find a contradiction
    guesses: int
    goal: str  # absent, meets or misses
    solutions: tuple[tuple[str, ...], ...]  # the rows of each, `#` for filled and `.` for blank; the first two of several


@dataclass(frozen=True)
class Extended(_Solutions):
    """The solutions of a puzzle that extend a grid. `str`, `rows` and `differing` are those of `Solved`.

    >>> extend("2 2\\n1\\n1\\n1\\n1\\n", "nin", "????").differing
    [(0, 0), (1, 0), (0, 1), (1, 1)]
    """

    verdict: str  # none, one, several or unsettled
    guesses: int
    solutions: tuple[tuple[str, ...], ...]  # the rows of each; the first two of several


class Graded(NamedTuple):
    """What grading finds of a puzzle, without its solutions. The fields are those of `Solved`."""

    width: int
    height: int
    verdict: str  # none, one, several or unsettled
    grade: str  # line, trials or search
    known_by_lines: int
    known_by_trials: int
    guesses: int
    goal: str  # absent, meets or misses


class Lines(NamedTuple):
    """What line logic or trials know of a puzzle's grid. `str` gives the rows, a line for each."""

    word: str  # one if all cells are known, open if not, none if there is a contradiction
    rows: tuple[str, ...]  # `#` for filled, `.` for blank and `?` for unknown; without rows if there is a contradiction

    @property
    def known(self) -> int:
        """How many cells are known.

        >>> lines("3 1\\n2\\n1\\n1\\n1\\n", "nin").known
        0
        >>> lines("3 1\\n2\\n1\\n1\\n0\\n", "nin").known
        3
        """
        return sum(len(row) - row.count("?") for row in self.rows)

    def __str__(self) -> str:
        return "\n".join(self.rows)

    def _repr_svg_(self) -> str | None:
        """The picture that notebooks show, with unknown cells in grey."""
        return _svg(self.rows)


class Finding(NamedTuple):
    """What `check` finds wrong. `str` gives it as `nonograde check` prints it, but for the file's name."""

    level: str  # error or warning
    line: int | None  # the number of the line of the text that it is about
    sentence: str
    pictures: tuple[str, ...]  # two solutions and where they differ, side by side, row by row; else nothing

    def __str__(self) -> str:
        place = "" if self.line is None else f"{self.line}: "
        return "\n".join([f"{place}{self.level}: {self.sentence}", *self.pictures])


class Text(NamedTuple):
    """A puzzle's text with its format, as the calls take them: `solve(*read("heart.non"))`."""

    text: str | bytes
    format: str


def _sentence(word: str, line: int | None) -> str:
    """A fault's sentence, about a line if there is one."""
    sentence = SENTENCES.get(word, "the call failed")
    if line is None:
        return sentence
    return sentence.replace("a line ", f"line {line} ") if sentence.startswith("a line ") else f"line {line}: {sentence}"


def _svg(rows: tuple[str, ...], marked: Iterable[tuple[int, int]] = ()) -> str | None:
    """A picture of rows, with the marked cells in red; None without rows."""
    if not rows:
        return None
    width, height = len(rows[0]), len(rows)
    colours = {"#": "black", "?": "silver"}
    fills = {(x, y): colours[cell] for y, row in enumerate(rows) for x, cell in enumerate(row) if cell in colours}
    for x, y in marked:
        fills[x, y] = "firebrick" if rows[y][x] == "#" else "lightpink"
    cells = "".join(f'<rect x="{x}" y="{y}" width="1" height="1" fill="{fill}"/>' for (x, y), fill in fills.items())
    frame = f'<rect width="{width}" height="{height}" fill="white" stroke="black" stroke-width="0.1"/>'
    size = f'viewBox="-0.1 -0.1 {width + 0.2:g} {height + 0.2:g}" width="{16 * width}" height="{16 * height}"'
    return f'<svg xmlns="http://www.w3.org/2000/svg" {size}>{frame}{cells}</svg>'


class _Reply(ctypes.Structure):
    _fields_ = [("status", ctypes.c_uint32), ("length", ctypes.c_size_t)]
    status: int
    length: int


class _Facts(ctypes.Structure):
    _fields_ = [
        (name, ctypes.c_uint32)
        for name in ("width", "height", "verdict", "grade", "line_cells", "trial_cells", "guesses", "goal", "fault_line")
    ]
    width: int
    height: int
    verdict: int
    grade: int
    line_cells: int
    trial_cells: int
    guesses: int
    goal: int
    fault_line: int


def _load() -> ctypes.CDLL:
    folder = os.environ.get("NONOGRADE_LIBRARY") or Path(__file__).resolve().parent
    path = Path(folder) / "libnonograde.so"
    try:
        library = ctypes.CDLL(str(path.absolute()))
        text: list[Any] = [ctypes.c_char_p, ctypes.c_size_t]
        number = ctypes.c_uint32
        calls: dict[str, list[Any]] = {
            "solve": [*text, *text, number, number, number],
            "report": [*text, *text, number, number, number],
            "check": [*text, *text, number, number, number],
            "lines": [*text, number],
            "close": [*text, number, *text, number],
            "extend": [*text, number, *text, number, number],
            "convert": [*text, number, number],
            "version": [],
        }
        for name, words in calls.items():
            call = getattr(library, f"nonograde_{name}")
            call.argtypes = words + text
            call.restype = _Reply
        library.nonograde_grade.argtypes = [*text, number, number, number, ctypes.POINTER(_Facts)]
        library.nonograde_grade.restype = number
        library.nonograde_buffer_size.argtypes = [number, number]
        library.nonograde_buffer_size.restype = ctypes.c_size_t
    except (OSError, AttributeError) as error:
        raise ImportError(
            f"{error}: `make library` in nonograde's repository builds libnonograde.so in out/library; "
            f"NONOGRADE_LIBRARY has to name the folder that it is in"
        ) from None
    return library


_library = _load()
_first_buffer = int(_library.nonograde_buffer_size(MAX_SIDE, MAX_SIDE))


def _answer(call: Callable[..., _Reply], *words: bytes | int) -> bytes:
    """The answer of a call. The first buffer holds any grids; it is made larger once if texts make the answer longer."""
    size = _first_buffer
    buffer = ctypes.create_string_buffer(size)
    reply = call(*words, buffer, size)
    if reply.status == BUFFER_TOO_SMALL:
        size = reply.length
        buffer = ctypes.create_string_buffer(size)
        reply = call(*words, buffer, size)
    said = ctypes.string_at(buffer, min(reply.length, size))
    if reply.status == BUFFER_TOO_SMALL:
        raise Fault("BufferTooSmall")
    if reply.status:
        word, _, line = said.decode().partition(":")
        raise Fault(word, int(line) if line else None)
    return said


def _refuse(name: str, value: object, wanted: str) -> NoReturn:
    """Raises that an argument has a wrong type."""
    raise TypeError(f"{name} is of type {type(value).__name__}, and has to be {wanted}")


def _bytes(name: str, text: str | bytes) -> bytes:
    """The bytes of an argument that is a text."""
    if isinstance(text, str):
        return text.encode()
    if isinstance(text, (bytes, bytearray, memoryview)):
        return bytes(text)
    _refuse(name, text, "str or bytes")


def _word(name: str, value: str, words: Collection[str]) -> str:
    """A word of a setting. Raises `Fault` if it is none of the words."""
    if not isinstance(value, str):
        _refuse(name, value, "str")
    if value not in words:
        raise Fault("BadSetting", None, f"{name} is {value!r}, and has to be one of {', '.join(words)}")
    return value


def _ending(name: str, format: str) -> str:
    """A format's word, of an ending in either case."""
    if not isinstance(format, str):
        _refuse(name, format, "str")
    return format.lower().removeprefix(".")


def _number(name: str, format: str) -> int:
    """The number of a format. Raises `Fault` if there is no such format."""
    return FORMATS.index(_word(name, _ending(name, format), FORMATS))


def _words(text: str | bytes, format: str) -> tuple[bytes, int, int]:
    """A text and its format, as a call takes them."""
    body = _bytes("text", text)
    return body, len(body), _number("format", format)


def _guesses(guesses: SupportsIndex) -> int:
    """A limit of guesses. Raises `Fault` if it is out of its range."""
    try:
        limit = operator.index(guesses)
    except TypeError:
        _refuse("guesses", guesses, "int")
    if not 0 <= limit <= MAX_GUESSES:
        raise Fault("BadSetting", None, f"guesses is {limit}, and has to be from 0 to {MAX_GUESSES}")
    return limit


def _rule(pick: str) -> int:
    """The number of a guess rule. Raises `Fault` if there is no such rule."""
    return PICKS.index(_word("pick", pick, PICKS))


def _solutions_of(said: str) -> tuple[tuple[str, ...], ...]:
    """The rows of each solution, which is followed by an empty line."""
    return tuple(tuple(grid.split("\n")) for grid in said.split("\n\n") if grid)


def solve(text: str | bytes, format: str, guesses: SupportsIndex = 1000, pick: str = "first") -> Solved:
    """Grades the puzzle of a text. The format is `non`, `mk` or `nin`, `guesses` the greatest number of guesses, and
    `pick` the guess rule, `first` or `most`.

    >>> found = solve("2 2\\n1\\n1\\n1\\n1\\n", "nin")
    >>> found.verdict, found.grade, found.guesses
    ('several', 'search', 2)
    >>> found.solutions
    (('#.', '.#'), ('.#', '#.'))
    >>> solve("2 2\\n1\\n1\\n1\\n1\\n", "nin", guesses=-1)
    Traceback (most recent call last):
    nonograde.Fault: BadSetting: guesses is -1, and has to be from 0 to 1000000
    """
    limit, rule = _guesses(guesses), _rule(pick)
    said = _answer(_library.nonograde_solve, b"", 0, *_words(text, format), limit, rule).decode()
    head, _, rows = said.partition("\n")
    _, sizes, verdict, grade, by_lines, by_trials, spent, goal, _ = head.split(" ", 8)
    width, height = map(int, sizes.split("x"))
    return Solved(width, height, verdict, grade, int(by_lines), int(by_trials), int(spent), goal, _solutions_of(rows))


def grade(text: str | bytes, format: str, guesses: SupportsIndex = 1000, pick: str = "first") -> Graded:
    """Grades the puzzle of a text as `solve` does, without its solutions.

    >>> found = grade("2 2\\n1\\n1\\n1\\n1\\n", "nin")
    >>> found.verdict, found.grade, found.guesses
    ('several', 'search', 2)
    """
    limit, rule = _guesses(guesses), _rule(pick)
    facts = _Facts()
    status = _library.nonograde_grade(*_words(text, format), limit, rule, ctypes.byref(facts))
    if status:
        raise Fault(STATUSES[status], facts.fault_line or None)
    words = VERDICTS[facts.verdict], GRADES[facts.grade]
    counts = facts.line_cells, facts.trial_cells, facts.guesses
    return Graded(facts.width, facts.height, *words, *counts, GOALS[facts.goal])


def report(
    text: str | bytes, format: str, guesses: SupportsIndex = 1000, pick: str = "first", name: str | bytes = ""
) -> dict[str, Any]:
    """All that is known of the puzzle of a text: the object that `nonograde survey --format json` prints of it as entry 1
    with this name. The other arguments are those of `solve`.

    >>> found = report("2 2\\n1\\n1\\n1\\n1\\n", "nin")
    >>> found["verdict"], found["rows"], found["differing"]
    ('several', [[1], [1]], ['**', '**'])
    >>> found["message"]
    'at least two solutions, which differ in 4 of 4 cells'
    """
    limit, rule = _guesses(guesses), _rule(pick)
    label = _bytes("name", name)
    said = _answer(_library.nonograde_report, label, len(label), *_words(text, format), limit, rule)
    members: dict[str, Any] = json.loads(said)
    return members


def _findings(said: str) -> tuple[Finding, ...]:
    """The findings in an answer of `check` without a name."""
    found = FINDING.findall(said)
    return tuple(Finding(level, int(line) if line else None, sentence, tuple(pictures.splitlines()))
                 for line, level, sentence, pictures in found)


def check(text: str | bytes, format: str, guesses: SupportsIndex = 1000, pick: str = "first") -> tuple[Finding, ...]:
    """What is wrong with a text or its puzzle, as `nonograde check` finds it; nothing if all is well. A text that is refused
    has a finding too. The arguments are those of `solve`.

    >>> for finding in check("2 2\\n1\\n1\\n1\\n1\\n", "nin"):
    ...     print(finding)
    error: at least two solutions, which differ in 4 of 4 cells
        #.   .#   **
        .#   #.   **
    >>> check("1 1\\n1\\n1\\n", "nin")
    ()
    >>> check("1 1\\n1\\nx\\n", "nin")[0].line
    3
    """
    limit, rule = _guesses(guesses), _rule(pick)
    return _findings(_answer(_library.nonograde_check, b"", 0, *_words(text, format), limit, rule).decode())


def _clue(name: str, place: int, clue: Row) -> str:
    """A clue as a line of .non."""
    try:
        numbers = [operator.index(number) for number in clue]
    except TypeError:
        raise TypeError(f"{name}[{place}] is {clue!r}, and has to be a sequence of int") from None
    return ",".join(map(str, numbers)) or "0"


def _clues(name: str, clues: Iterable[Row]) -> list[str]:
    """The clues of all rows, or of all columns, as lines of .non."""
    if not isinstance(clues, Iterable):
        _refuse(name, clues, "a sequence of clues")
    return [_clue(name, place, clue) for place, clue in enumerate(clues)]


def solve_clues(
    rows: Iterable[Row], columns: Iterable[Row], guesses: SupportsIndex = 1000, pick: str = "first"
) -> Solved:
    """Grades the puzzle of these clues, as `solve` does. A line without filled cells has the clue `[]` or `[0]`.

    >>> print(solve_clues([[1, 1], [5], [3], [1]], [[1], [3], [3], [3], [1]]))
    .#.#.
    #####
    .###.
    ..#..
    >>> solve_clues([[1], [0, 1]], [[1], [1]])
    Traceback (most recent call last):
    nonograde.Fault: BadNumber: rows[1] is no clue
    """
    across, down = _clues("rows", rows), _clues("columns", columns)
    head = [f"width {len(down)}", f"height {len(across)}", "rows"]
    text = "\n".join([*head, *across, "columns", *down, ""])
    try:
        return solve(text, "non", guesses, pick)
    except Fault as fault:
        if fault.line is None:
            raise
        place = fault.line - len(head) - 1
        name = f"rows[{place}]" if place < len(across) else f"columns[{place - len(across) - 1}]"
        raise Fault(fault.word, None, fault.sentence.replace(f"line {fault.line}", name)) from None


def _lines_of(said: bytes) -> Lines:
    """What a call says of a closed grid."""
    head, *rows = said.decode().split("\n")
    return Lines(head.split(" ")[0], tuple(rows[:-1]))


def lines(text: str | bytes, format: str) -> Lines:
    """What line logic knows of a puzzle: the word `one`, `open` or `none`, and the rows, `?` for unknown.

    >>> word, rows = lines("2 2\\n1\\n1\\n1\\n1\\n", "nin")
    >>> word, rows
    ('open', ('??', '??'))
    """
    return _lines_of(_answer(_library.nonograde_lines, *_words(text, format)))


def _row(name: str, row: object) -> str:
    """A row of a grid that is given as a sequence."""
    if not isinstance(row, str):
        _refuse(name, row, "str")
    return row


def _cells(grid: str | bytes | Iterable[str]) -> bytes:
    """The cells of a grid as a call takes them."""
    if isinstance(grid, (str, bytes, bytearray, memoryview)):
        return _bytes("grid", grid)
    if not isinstance(grid, Iterable):
        _refuse("grid", grid, "str or a sequence of str")
    return "".join(_row(f"grid[{place}]", row) + "\n" for place, row in enumerate(grid)).encode()


def close(text: str | bytes, format: str, grid: str | bytes | Iterable[str], by: str = "lines") -> Lines:
    """What line logic, or with `by="trials"` trials of single cells, make of a grid of a puzzle, as `lines` returns it: for a
    hint, or to see that a player went wrong. The grid is a string, with or without line ends, or a sequence of rows, with `#`
    for filled, `.` for blank and `?` for unknown.

    >>> print(close("2 2\\n1\\n1\\n1\\n1\\n", "nin", ["#?", "??"]))
    #.
    .#
    >>> close("2 2\\n1\\n1\\n1\\n1\\n", "nin", "#?#?").word
    'none'
    >>> close("2 2\\n1\\n1\\n1\\n1\\n", "nin", "#?")
    Traceback (most recent call last):
    nonograde.Fault: BadCells: the cells don't fit the puzzle
    """
    way, cells = CLOSINGS.index(_word("by", by, CLOSINGS)), _cells(grid)
    return _lines_of(_answer(_library.nonograde_close, *_words(text, format), cells, len(cells), way))


def extend(
    text: str | bytes, format: str, grid: str | bytes | Iterable[str], guesses: SupportsIndex = 1000, pick: str = "first"
) -> Extended:
    """The solutions of a puzzle that extend a grid: whether it can still be solved, and in one way only. The grid is as for
    `close`, and the other arguments are those of `solve`. The verdict is `unsettled` only if all guesses were made.

    >>> found = extend("2 2\\n1\\n1\\n1\\n1\\n", "nin", ["?#", "??"])
    >>> found.verdict, found.guesses
    ('one', 0)
    >>> print(found)
    .#
    #.
    >>> extend("2 2\\n1\\n1\\n1\\n1\\n", "nin", "##??").verdict
    'none'
    >>> extend("2 2\\n1\\n1\\n1\\n1\\n", "nin", "????").verdict
    'several'
    """
    limit, rule, cells = _guesses(guesses), _rule(pick), _cells(grid)
    said = _answer(_library.nonograde_extend, *_words(text, format), cells, len(cells), limit, rule).decode()
    head, _, rows = said.partition("\n")
    verdict, spent = head.split(" ")
    return Extended(verdict, int(spent), _solutions_of(rows))


def convert(text: AnyText, format: str, to: str) -> AnyText:
    """A puzzle's text in another format: a `str` of a `str`, `bytes` of `bytes`.

    >>> convert("1 1\\n1\\n1\\n", "nin", "mk")
    '1 1\\n1\\n#\\n1\\n'
    >>> convert(b"1 1\\n1\\n1\\n", ".NIN", "mk")
    b'1 1\\n1\\n#\\n1\\n'
    """
    said = _answer(_library.nonograde_convert, *_words(text, format), _number("to", to))
    return said.decode() if isinstance(text, str) else said


def read(path: str | os.PathLike[str]) -> Text:
    """The text of a file, and its format. The text is a `str` if it is UTF-8, and else `bytes`.

    >>> import tempfile
    >>> with tempfile.TemporaryDirectory() as folder:
    ...     file = Path(folder) / "two.nin"
    ...     _ = file.write_text("2 1\\n2\\n1\\n1\\n")
    ...     solve(*read(file)).rows
    ('##',)
    """
    body = Path(path).read_bytes()
    try:
        text: str | bytes = body.decode()
    except UnicodeDecodeError:
        text = body
    return Text(text, _ending("format", Path(path).suffix))


def version() -> str:
    """The version, as the program tells it."""
    return _answer(_library.nonograde_version).decode()


__version__ = version()
