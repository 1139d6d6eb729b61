"""A second implementation of the text formats of nonograde, written from the page `docs/formats.md` alone.

It shares no code with the program and its library, so that a comparison finds a mistake that only one of them makes. It
is meant to be read beside the page: it uses the page's terms, and it is plain rather than quick. All texts and names
are bytes, and no byte is decoded.

>>> puzzle = read("mk", b"2 4\\n2\\n1 1\\n#\\n1\\n1\\n1\\n1\\n")
>>> puzzle.width, puzzle.height, puzzle.rows
(4, 2, ((2,), (1, 1)))
>>> written("nin", puzzle)
b'4 2\\n2\\n1 1\\n1\\n1\\n1\\n1\\n'
>>> read("nin", b"1 1\\n1\\nx\\n")
Traceback (most recent call last):
readers.Fault: BadNumber:3
"""

import re
from dataclasses import dataclass

FORMATS = ("non", "mk", "nin")
TEXT_KEYWORDS = (b"catalogue", b"title", b"by", b"copyright", b"license")
SINGLE_KEYWORDS = (b"width", b"height", b"rows", b"columns")  # each must be there just once

MAX_SIDE = 256  # also the greatest number of a clue
MAX_NUMBERS = 128  # of a clue
MAX_TEXT = 1_048_576  # bytes of a puzzle's text
MAX_KEYWORD_TEXT = 65_536  # bytes of a title and its like
MAX_COLLECTION = 16_777_216  # bytes of a collection
MAX_ENTRIES = 10_000

SEPARATORS = bytes.maketrans(b",\t", b"  ")
KEYWORD = re.compile(rb"[A-Za-z]+")
UNPRINTED = bytes([*range(32), 127])
PRINTED = bytes.maketrans(UNPRINTED, b"?" * len(UNPRINTED))


class Fault(Exception):
    """Why a text can't be read, cut or written: the fault's word, and the number of the line that it is about or None.

    >>> str(Fault("BadNumber", 5)), str(Fault("BadCount"))
    ('BadNumber:5', 'BadCount')
    """

    def __init__(self, word, line=None):
        super().__init__(word if line is None else f"{word}:{line}")
        self.word = word
        self.line = line


@dataclass(frozen=True)
class Puzzle:
    """A puzzle as a text describes it. Each clue is a tuple of numbers; that of a line without a filled cell is empty."""

    width: int
    height: int
    rows: tuple  # the clues of the rows, from the top
    columns: tuple  # the clues of the columns, from the left
    texts: tuple = ()  # pairs of a keyword and a text, in the order of TEXT_KEYWORDS, only those that are there
    goal: bytes = None  # one b"0" or b"1" for each cell, row by row from the top; None if there is no goal


# Lines and numbers


def without_return(line):
    """Returns the line without the carriage return at its end, if there is one; of several only the last is dropped."""
    return line[:-1] if line.endswith(b"\r") else line


def text_lines(text):
    """Returns the lines of a text, each as a pair of its number, from 1, and what is left of it after the line feed, one
    carriage return, and the spaces and tabs at both ends are dropped. A blank line is one of which nothing is left.

    >>> text_lines(b" 1,2 \\r\\n\\n\\t3")
    [(1, b'1,2'), (2, b''), (3, b'3')]
    """
    lines = text.split(b"\n")
    if not lines[-1]:
        lines.pop()
    return [(number, without_return(line).strip(b" \t")) for number, line in enumerate(lines, 1)]


def pieces(line):
    """Returns the non-empty pieces into which commas, spaces and tabs cut a line.

    >>> pieces(b"2,, 1")
    [b'2', b'1']
    """
    return [piece for piece in line.translate(SEPARATORS).split(b" ") if piece]


def number_value(piece):
    """Returns the value of a piece that is a number of at most 256, however many leading zeros it has, or None if the
    piece is a greater number or no number.

    >>> number_value(b"000"), number_value(b"0256"), number_value(b"257"), number_value(b"+1")
    (0, 256, None, None)
    """
    if not piece.isdigit():
        return None
    digits = piece.lstrip(b"0")
    if len(digits) > 3:  # A number of thousands of digits is not converted.
        return None
    value = int(digits or b"0")
    return value if value <= MAX_SIDE else None


def size(piece):
    """Returns the size, from 1 to 256, that a piece is, or None if it is no size."""
    return number_value(piece) or None


def clue(line):
    """Returns the clue that a line says, as a tuple of numbers, or None if it says no clue.

    >>> clue(b"02 ,1"), clue(b"00"), clue(b","), clue(b"0 1")
    ((2, 1), (), (), None)
    """
    values = tuple([number_value(piece) for piece in pieces(line)])
    if values == (0,):
        return ()
    if len(values) > MAX_NUMBERS or 0 in values or None in values:
        return None
    return values


def clue_lines(section, count):
    """Returns those lines of a section that are its `count` clue lines, or None if it doesn't have so many."""
    filled = [line for line in section if line[1]]
    if len(filled) == count:
        return filled
    if len(section) >= count and not any(line for _, line in section[count:]):
        return section[:count]
    return None


def clues_of_lines(lines):
    """Returns the clues of clue lines, which are in the order of the text. Raises `BadNumber` with the number of the first
    line that says no clue."""
    clues = []
    for number, line in lines:
        found = clue(line)
        if found is None:
            raise Fault("BadNumber", number)
        clues.append(found)
    return tuple(clues)


def sizes_and_rest(lines):
    """Returns the two sizes of the size line, which is the first of the lines that is not blank, and the lines after it.
    Raises `NoSize` or `BadSize`."""
    for index, (_, line) in enumerate(lines):
        if line:
            break
    else:
        raise Fault("NoSize")
    found = pieces(line)
    if len(found) != 2:
        raise Fault("NoSize")
    first, second = map(size, found)
    if first is None or second is None:
        raise Fault("BadSize")
    return first, second, lines[index + 1 :]


# Reading


def keyword_text(rest):
    """Returns the text of a keyword line with this rest: what stands between the first and the last double quote, or all
    of it if there are not two quotes.

    >>> keyword_text(b'"a"b"'), keyword_text(b'"a')
    (b'a"b', b'"a')
    """
    first, last = rest.find(b'"'), rest.rfind(b'"')
    return rest[first + 1 : last] if first < last else rest


def read_non(text):
    """Returns the puzzle of a text in `.non`, or raises the first fault but `TooLong`."""
    firsts = {}  # for each keyword that is there the number and the rest of its first line
    repeated = []  # the numbers of the lines that repeat a keyword
    bad = []  # the numbers of the lines that are out of place
    sections = {b"rows": [], b"columns": []}
    section = None
    for number, line in text_lines(text):
        if line.startswith(b"#"):
            continue
        match = KEYWORD.match(line)
        if match:
            keyword = match.group().lower()
            section = sections.get(keyword)
            if keyword not in firsts:
                firsts[keyword] = (number, line[match.end() :].strip(b" \t"))
            elif keyword in SINGLE_KEYWORDS:
                repeated.append(number)
        elif section is not None:
            section.append((number, line))
        elif line:
            bad.append(number)

    if b"width" not in firsts or b"height" not in firsts:
        raise Fault("NoSize")
    width, height = size(firsts[b"width"][1]), size(firsts[b"height"][1])
    if width is None or height is None:
        raise Fault("BadSize")
    if b"rows" not in firsts or b"columns" not in firsts:
        raise Fault("NoSection")
    texts = []
    for keyword in TEXT_KEYWORDS:
        if keyword in firsts:
            number, rest = firsts[keyword]
            value = keyword_text(rest)
            texts.append((keyword, value))
            if len(value) > MAX_KEYWORD_TEXT:
                bad.append(number)
    if bad:
        raise Fault("BadLine", min(bad))
    if repeated:
        raise Fault("Twice", min(repeated))
    row_lines, column_lines = clue_lines(sections[b"rows"], height), clue_lines(sections[b"columns"], width)
    if row_lines is None or column_lines is None:
        raise Fault("BadCount")
    if firsts[b"rows"] < firsts[b"columns"]:
        rows, columns = clues_of_lines(row_lines), clues_of_lines(column_lines)
    else:
        columns, rows = clues_of_lines(column_lines), clues_of_lines(row_lines)
    goal = None
    if b"goal" in firsts:
        number, rest = firsts[b"goal"]
        goal = keyword_text(rest)
        if len(goal) != width * height or goal.translate(None, b"01"):
            raise Fault("BadGoal", number)
    return Puzzle(width, height, rows, columns, tuple(texts), goal)


def read_mk(text):
    """Returns the puzzle of a text in `.mk`, or raises the first fault but `TooLong`."""
    first, second, lines = sizes_and_rest(text_lines(text))
    separators = [index for index, (_, line) in enumerate(lines) if line.startswith(b"#")]
    if not separators:
        raise Fault("NoSection")
    row_section = lines[: separators[0]]
    column_section = lines[separators[0] + 1 : separators[1] if len(separators) > 1 else None]
    for height, width in ((first, second), (second, first)):
        row_lines, column_lines = clue_lines(row_section, height), clue_lines(column_section, width)
        if row_lines is not None and column_lines is not None:
            return Puzzle(width, height, clues_of_lines(row_lines), clues_of_lines(column_lines))
    raise Fault("BadCount")


def is_admissible(puzzle):
    """Returns whether each clue fits its line, and the rows fill as many cells as the columns."""

    def all_fit(clues, length):
        return all(sum(numbers) + len(numbers) - 1 <= length for numbers in clues)

    return (
        all_fit(puzzle.rows, puzzle.width)
        and all_fit(puzzle.columns, puzzle.height)
        and sum(map(sum, puzzle.rows)) == sum(map(sum, puzzle.columns))
    )


def reading(clues, width, height):
    """Returns the puzzle with these sides of which the first clues, as many as the height says, are the rows."""
    return Puzzle(width, height, clues[:height], clues[height:])


def read_nin(text):
    """Returns the puzzle of a text in `.nin`, or raises the first fault but `TooLong`."""
    first, second, section = sizes_and_rest(text_lines(text))
    lines = clue_lines(section, first + second)
    if lines is None:
        raise Fault("BadCount")
    clues = clues_of_lines(lines)
    usual, exchanged = reading(clues, first, second), reading(clues, second, first)
    return exchanged if is_admissible(exchanged) and not is_admissible(usual) else usual


READERS = {"non": read_non, "mk": read_mk, "nin": read_nin}


def read(format, text):
    """Returns the puzzle of a text in a format, `non`, `mk` or `nin`, or raises the first fault in the page's order."""
    if len(text) > MAX_TEXT:
        raise Fault("TooLong")
    return READERS[format](text)


def read_entry(name, text):
    """Returns the puzzle of a text in the format that the ending of its name says. Raises `UnknownFormat` if the ending
    says none, and otherwise the first fault of the text."""
    for format in FORMATS:
        if name.lower().endswith(b"." + format.encode()):
            return read(format, text)
    raise Fault("UnknownFormat")


# Writing


def written(format, puzzle):
    """Returns the text of a puzzle in a format, `non`, `mk` or `nin`. Raises `Ambiguous` in `.nin` if the puzzle would be
    read with its sides exchanged."""

    def clue_texts(clues, separator):
        return [separator.join([b"%d" % number for number in numbers]) or b"0" for numbers in clues]

    width, height = puzzle.width, puzzle.height
    if format == "non":
        lines = [b'%s "%s"' % pair for pair in puzzle.texts]
        lines += [b"width %d" % width, b"height %d" % height]
        lines += [b"", b"rows", *clue_texts(puzzle.rows, b",")]
        lines += [b"", b"columns", *clue_texts(puzzle.columns, b",")]
        if puzzle.goal is not None:
            lines += [b"", b'goal "%s"' % puzzle.goal]
    elif format == "mk":
        lines = [b"%d %d" % (height, width), *clue_texts(puzzle.rows, b" "), b"#", *clue_texts(puzzle.columns, b" ")]
    else:
        exchanged = reading(puzzle.rows + puzzle.columns, height, width)
        if width != height and not is_admissible(puzzle) and is_admissible(exchanged):
            raise Fault("Ambiguous")
        lines = [b"%d %d" % (width, height), *clue_texts(puzzle.rows + puzzle.columns, b" ")]
    return b"".join([line + b"\n" for line in lines])


# Collections and surveys


def cut(collection):
    """Returns the entries of a collection, each as a pair of its name and its text. Raises `TooLong`, `Stray` with the
    number of the first line that is out of place, or `TooMany`.

    >>> cut(b"@ a.mk\\n1 1\\n@  b.nin \\n")
    [(b'a.mk', b'1 1\\n'), (b'b.nin', b'')]
    """
    if len(collection) > MAX_COLLECTION:
        raise Fault("TooLong")
    markers = []  # of each marker line its name, where it starts, and where the next line starts
    start = 0
    for number, whole in enumerate(collection.split(b"\n"), 1):
        line = without_return(whole)
        end = start + len(whole) + 1
        if line.startswith(b"@") and line[1:2] in (b"", b" ", b"\t"):
            name = line[1:].strip(b" \t")
            if not name:
                raise Fault("Stray", number)
            markers.append((name, start, end))
        elif not markers and line.strip(b" \t"):
            raise Fault("Stray", number)
        start = end
    if len(markers) > MAX_ENTRIES:
        raise Fault("TooMany")
    ends = [start for _, start, _ in markers[1:]] + [len(collection)]
    return [(name, collection[start:end]) for (name, _, start), end in zip(markers, ends)]


def goal_word(puzzle):
    """Returns the word that a survey prints of a puzzle's goal: `absent` if there is none, `meets` if the lengths of the
    runs of filled cells of each row and of each column are its clue, and otherwise `misses`."""
    if puzzle.goal is None:
        return "absent"

    def runs(cells):
        return tuple([len(run) for run in cells.split(b"0") if run])

    width, goal = puzzle.width, puzzle.goal
    rows = tuple([runs(goal[start : start + width]) for start in range(0, len(goal), width)])
    columns = tuple([runs(goal[column::width]) for column in range(width)])
    return "meets" if (rows, columns) == (puzzle.rows, puzzle.columns) else "misses"


def printed_name(name):
    """Returns a name as a survey prints it, with a question mark for each byte from 0 to 31 and for the byte 127."""
    return name.translate(PRINTED)
