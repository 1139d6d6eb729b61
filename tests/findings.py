"""A second implementation of what `nonograde check` prints.

It is written from `docs/formats.md` and the list of findings in `man/nonograde.1`, and shares no code with the program, so
that a test can compare the two. It takes texts apart by `readers.py` and solves puzzles by `solving.py`. Names and texts
are bytes; what is printed is put together as a str of which each character is a byte.

>>> check([(b"a.mk", b"1 1\\n1\\n#\\n0\\n")], Options())
b'a.mk: error: no solution: the rows fill 1 cell, the columns 0\\n1 entry: 0 with one solution, 1 error, 0 warnings\\n'
"""

from collections import namedtuple

import readers
import solving

MAX_QUOTED = 60  # bytes
MAX_SHOWN = 24  # rows and columns of a picture
MAX_GUESSES = 1_000_000
NEEDED = (b"width", b"height", b"rows", b"columns")
LETTERS = [bytes([letter]) for letter in b"abcdefghijklmnopqrstuvwxyz"]

Options = namedtuple("Options", "guesses pick grade all", defaults=(1000, "first", None, False))
Options.__doc__ = "The options of `check`. The grade is `line`, `trials` or None."

# Words


def quoted(line):
    """Returns how bytes are quoted.

    >>> quoted(b"1\\xe2\\x80\\x931"), quoted(b"-" * 61)
    ('1???1', '------------------------------------------------------------..')
    """
    shown = "".join(chr(byte) if 32 <= byte <= 126 else "?" for byte in line[:MAX_QUOTED])
    return shown + (".." if len(line) > MAX_QUOTED else "")


def counted(number, word, several=None):
    """Returns a number, with commas, and its word, or that for several, which usually has an `s` more.

    >>> counted(1, "cell"), counted(12345, "cell"), counted(0, "entry", "entries")
    ('1 cell', '12,345 cells', '0 entries')
    """
    return f"{number:,} {word if number == 1 else several or word + 's'}"


def clue_text(clue):
    """Returns a clue as it is quoted."""
    return quoted((" ".join(map(str, clue)) or "0").encode())


# Refused texts


def is_near(word, other):
    """Returns whether one edit makes a word another word: a letter is changed, dropped or added, or two neighbours are
    exchanged.

    >>> is_near(b"widht", b"width"), is_near(b"row", b"rows"), is_near(b"rwo", b"rows")
    (True, True, False)
    """
    cuts = [(word[:index], word[index:]) for index in range(len(word) + 1)]
    edits = {head + tail[1:] for head, tail in cuts if tail}
    edits |= {head + tail[1:2] + tail[:1] + tail[2:] for head, tail in cuts if len(tail) > 1}
    edits |= {head + letter + tail[1:] for head, tail in cuts if tail for letter in LETTERS}
    edits |= {head + letter + tail for head, tail in cuts for letter in LETTERS}
    return word != other and other in edits


def keywords(text):
    """Returns the number, the keyword and the rest of each keyword line, as a list."""
    found = [(number, line, readers.KEYWORD.match(line)) for number, line in readers.text_lines(text)]
    return [(number, match.group().lower(), line[match.end() :].strip(b" \t")) for number, line, match in found if match]


def first_rests(text):
    """Returns the rest of the first line with each keyword, as a dict."""
    return {keyword: rest for _, keyword, rest in reversed(keywords(text))}


def misspelt(text, wanted):
    """Returns the finding on the first keyword that is nearly a wanted one which is missing, or None."""
    found = keywords(text)
    for keyword in wanted:
        if keyword not in [other for _, other, _ in found]:
            for number, other, _ in found:
                if abs(len(other) - len(keyword)) < 2 and is_near(other, keyword):
                    return number, f'the keyword is nearly "{keyword.decode()}", which is missing'
    return None


def sizes_in(line):
    """Returns the two sizes that a line has, or None if it has anything else."""
    sizes = [readers.size(piece) for piece in readers.pieces(line)]
    return sizes if len(sizes) == 2 and None not in sizes else None


def line_after(section, count):
    """Returns of a section's lines that aren't blank the one after the first `count`, if it has two sizes, as its number,
    their sum, and how many follow; else None.
    """
    filled = [line for line in section if line[1]]
    sizes = sizes_in(filled[count][1]) if len(filled) > count else None
    return sizes and (filled[count][0], sum(sizes), len(filled) - count - 1)


def second_puzzle(format, text, fault):
    """Returns the number of the line in which a second puzzle begins, or None."""
    if format == "non":
        firsts = {keyword: number for number, keyword, _ in reversed(keywords(text))}
        is_below = fault.word == "Twice" and all(firsts[keyword] < fault.line for keyword in NEEDED)
        return fault.line if is_below else None
    if fault.word != "BadCount":
        return None
    first, second, lines = readers.sizes_and_rest(readers.text_lines(text))
    if format == "nin":
        found = line_after(lines, first + second)
        return found[0] if found and found[1] == found[2] else None
    hashes = [index for index, (_, line) in enumerate(lines) if line.startswith(b"#")]
    found = line_after(lines[hashes[0] + 1 : hashes[1]], second) if len(hashes) > 1 else None
    return found and found[0]


def form_of(format, text, fault):
    """Returns the finding on a text's form that explains its fault, as a line and a sentence, or None."""
    if text.startswith(b"\xef\xbb\xbf"):
        return 1, "the text begins with a byte order mark (save it as UTF-8 without one)"
    if text.startswith((b"\xfe\xff", b"\xff\xfe")):
        return 1, "the text is in UTF-16 (save it as UTF-8)"
    if b"\r" in text and b"\n" not in text:
        return 1, "the lines end in CR alone (end them with LF or CR LF)"
    if fault.word == "TooLong":
        return None
    if format == "non" and fault.word in ("NoSize", "NoSection"):
        return misspelt(text, NEEDED[:2] if fault.word == "NoSize" else NEEDED[2:])
    line = second_puzzle(format, text, fault)
    return line and (line, "a second puzzle begins here or just above (give each puzzle its own file)")


def clue_line_count(section, wanted):
    """Returns how many clue lines a section has that should have `wanted`."""
    if readers.clue_lines(section, wanted) is not None:
        return wanted
    return len([line for _, line in section if line])


def non_sections(text):
    """Returns the lines of the rows section and of the columns section of a text in `.non`, which has each just once."""
    sections, section = {b"rows": [], b"columns": []}, None
    for number, line in readers.text_lines(text):
        match = readers.KEYWORD.match(line)
        if match:
            section = sections.get(match.group().lower())
        elif section is not None and not line.startswith(b"#"):
            section.append((number, line))
    return sections[b"rows"], sections[b"columns"]


def wrong_count(format, text):
    """Returns the sentence on a text with a wrong number of clue lines."""
    if format == "non":
        rests = first_rests(text)
        height, width = readers.size(rests[b"height"]), readers.size(rests[b"width"])
        rows, columns = non_sections(text)
    else:
        height, width, lines = readers.sizes_and_rest(readers.text_lines(text))
        if format == "nin":
            wanted = height + width
            return f"there are {clue_line_count(lines, wanted)} clue lines for {wanted} rows and columns"
        hashes = [index for index, (_, line) in enumerate(lines) if line.startswith(b"#")] + [len(lines)]
        rows, columns = lines[: hashes[0]], lines[hashes[0] + 1 : hashes[1]]
    return (
        f"there are {clue_line_count(rows, height)} clue lines for {height} rows, "
        f"and {clue_line_count(columns, width)} for {width} columns"
    )


def wrong_goal(text):
    """Returns the sentence on a text in `.non` with a wrong goal."""
    rests = first_rests(text)
    found = len(readers.keyword_text(rests[b"goal"]))
    wanted = readers.size(rests[b"width"]) * readers.size(rests[b"height"])
    if found == wanted:
        return "the goal has a character other than 0 and 1"
    return f"the goal has {found} characters for {wanted} cells"


def refused(format, text, fault):
    """Returns the finding on a text that is refused for a fault: the number of a line or None, and a sentence."""
    form = form_of(format, text, fault)
    if form:
        return form
    line = f'"{quoted(dict(readers.text_lines(text))[fault.line])}"' if fault.line else None
    if fault.word == "BadCount":
        return None, wrong_count(format, text)
    if fault.word == "BadGoal":
        return fault.line, wrong_goal(text)
    is_non = format == "non"
    sentences = {
        "TooLong": "the text has more than 1,048,576 bytes",
        "NoSize": 'there is no line "width N" or no line "height N"' if is_non else "no line with two sizes is at the top",
        "BadSize": "a size is not a number from 1 to 256",
        "NoSection": 'there is no line "rows" or no line "columns"'
        if is_non
        else "no line with # is between the clues of the rows and of the columns",
        "BadLine": f"{line} belongs to no section (or is a text of more than 65,536 bytes)",
        "Twice": f"{line} repeats a keyword",
        "BadNumber": f"{line} is not a clue (at most 128 numbers from 1 to 256, or 0 alone)",
    }
    return fault.line, sentences[fault.word]


# Graded puzzles


def contradiction(puzzle):
    """Returns what the first round of line logic that ends dead shows of `puzzle`, which line logic refutes."""
    rows = [f"row {number} ({clue_text(clue)})" for number, clue in enumerate(puzzle.rows, 1)]
    columns = [f"column {number} ({clue_text(clue)})" for number, clue in enumerate(puzzle.columns, 1)]
    grid = solving.unknown_grid(puzzle)
    while True:
        row_lines = [solving.deduced(clue, line) for clue, line in zip(puzzle.rows, grid)]
        column_lines = [solving.deduced(clue, line) for clue, line in zip(puzzle.columns, solving.transposed(grid))]
        dead = [name for name, line in zip(rows + columns, row_lines + column_lines) if line is None]
        if dead:
            return f"no placing is left for {dead[0]}"
        for row, row_line, crossing in zip(rows, row_lines, solving.transposed(column_lines)):
            for column, *colours in zip(columns, row_line, crossing):
                if set(colours) == {solving.FILLED, solving.BLANK}:
                    return f"{row} and {column} contradict each other in their common cell"
        grid = solving.line_round(puzzle, grid)


def unequal_sums(puzzle):
    """Returns, in a list, the sentence on a puzzle whose rows fill another number of cells than its columns."""
    rows, columns = [sum(map(sum, clues)) for clues in (puzzle.rows, puzzle.columns)]
    return [f"the rows fill {counted(rows, 'cell')}, the columns {columns:,}"] if rows != columns else []


def unsolvable(puzzle, grade):
    """Returns the sentences on a puzzle without a solution."""
    sentences = []
    for word, clues, cells in (("row", puzzle.rows, puzzle.width), ("column", puzzle.columns, puzzle.height)):
        for number, clue in enumerate(clues, 1):
            needed = sum(clue) + max(len(clue) - 1, 0)
            if needed > cells:
                sentences.append(f"{word} {number} needs {counted(needed, 'cell')} ({clue_text(clue)}) and has {cells}")
    sentences += unequal_sums(puzzle)
    if not sentences and grade == "line":
        sentences.append("by line logic " + contradiction(puzzle))
    elif not sentences:
        refuted = {"trials": "each colour of some cell leads to a contradiction", "search": "the search found none"}
        sentences.append(refuted[grade])
    return ["no solution: " + sentence for sentence in sentences]


def shown(place, side):
    """Returns the range of the rows, or columns, that a picture shows of `side` around the one at `place`."""
    start = min(max(place - 11, 0), max(side - MAX_SHOWN, 0))
    return range(start, min(start + MAX_SHOWN, side))


def ambiguous(first, second):
    """Returns the sentence on two solutions, and the lines of their pictures."""
    marks = ["".join(".*"[cell != other] for cell, other in zip(*rows)) for rows in zip(first, second)]
    differing = [(y, x) for y, row in enumerate(marks) for x, mark in enumerate(row) if mark == "*"]
    height, width = len(first), len(first[0])
    rows, columns = shown(differing[0][0], height), shown(differing[0][1], width)
    lines = []
    if (len(rows), len(columns)) != (height, width):
        lines.append(f"rows {rows[0] + 1} to {rows[-1] + 1}, columns {columns[0] + 1} to {columns[-1] + 1}:")
    for y in rows:
        lines.append("   ".join(grid[y][columns[0] : columns[-1] + 1] for grid in (first, second, marks)))
    sentence = f"at least two solutions, which differ in {len(differing):,} of {counted(width * height, 'cell')}"
    return sentence, ["    " + line for line in lines]


def above_grade(grade, greatest):
    """Returns the sentence on a puzzle of a grade if it is above the greatest one, or None."""
    takes = "it takes a search" if grade == "search" else "it takes trials"
    if greatest == "line" and grade != "line":
        return f"line logic alone does not solve it ({takes})"
    if greatest == "trials" and grade == "search":
        return f"trials do not solve it ({takes})"
    return None


def goal_rows(puzzle, solution):
    """Returns the numbers of the rows in which the goal of a puzzle, if it has one, differs from its solution."""
    if puzzle.goal is None:
        return []
    goal = puzzle.goal.decode().translate(str.maketrans("01", solving.BLANK + solving.FILLED))
    return [y for y, row in enumerate(solution, 1) if goal[(y - 1) * puzzle.width : y * puzzle.width] != row]


def warnings_of(puzzle, report, options):
    """Returns the sentences of the warnings on a puzzle."""
    sentences = []
    if report.verdict == "unsettled":
        hint = " (try --guesses 1000000)" if options.guesses < MAX_GUESSES else ""
        sentences.append(f"not settled within {counted(options.guesses, 'guess', 'guesses')}{hint}")
    if report.verdict in ("several", "unsettled") and readers.goal_word(puzzle) == "misses":
        sentences.append("the goal does not meet the clues")
    if report.verdict == "one":
        rows = goal_rows(puzzle, report.solutions[0])
        if rows:
            numbers = quoted(", ".join(map(str, rows)).encode())
            sentences.append(f"the goal differs from the only solution in row{'s' * (len(rows) > 1)} {numbers}")
        sentence = above_grade(report.grade, options.grade)
        sentences += [sentence] if sentence else []
    return sentences


def graded(puzzle, options):
    """Returns what is printed of a puzzle, but its name: the lines, and the level of the worst finding, `error`, `warning`
    or None. A line that doesn't begin with the name begins with spaces.
    """
    solved = solving.Puzzle(puzzle.width, puzzle.height, puzzle.rows, puzzle.columns)
    report = solving.report(solved, options.guesses, options.pick)
    errors, pictures = [], []
    if report.verdict == "none":
        errors = unsolvable(solved, report.grade)
    elif report.verdict == "unsettled" and unequal_sums(solved):
        return [f"error: no solution: {unequal_sums(solved)[0]}"], "error"
    elif report.verdict == "several":
        sentence, pictures = ambiguous(*report.solutions)
        errors = [sentence]
    warnings = warnings_of(puzzle, report, options)
    lines = [f"error: {sentence}" for sentence in errors] + pictures + [f"warning: {sentence}" for sentence in warnings]
    if not lines and options.all:
        means = "line logic" if report.grade == "line" else report.grade
        lines.append(f"one solution, by {means} ({counted(puzzle.width * puzzle.height, 'cell')})")
    return lines, "error" if errors else "warning" if warnings else None


# Entries


def entry(name, text, options):
    """Returns what is printed of an entry, and the level of its worst finding."""
    printed = readers.printed_name(name).decode("latin-1")
    try:
        lines, level = graded(readers.read_entry(name, text), options)
    except readers.Fault as fault:
        if fault.word == "UnknownFormat":
            line, sentence = None, "the name has no known ending (.non, .mk or .nin)"
        else:
            line, sentence = refused(name.rpartition(b".")[2].lower().decode(), text, fault)
        return f"{printed}:{line}: error: {sentence}\n" if line else f"{printed}: error: {sentence}\n", "error"
    return "".join(f"{line}\n" if line.startswith("    ") else f"{printed}: {line}\n" for line in lines), level


def totals(levels):
    """Returns the last line for entries with these levels."""
    errors, warnings = [f"{levels.count(level)} {level}{'s' * (levels.count(level) != 1)}" for level in ("error", "warning")]
    subject = "entry" if len(levels) == 1 else "entries"
    return f"{len(levels)} {subject}: {levels.count(None)} with one solution, {errors}, {warnings}\n"


def check(entries, options):
    """Returns what is printed of entries, which are pairs of a name and a text."""
    found = [entry(name, text, options) for name, text in entries]
    return ("".join(text for text, _ in found) + totals([level for _, level in found])).encode("latin-1")
