/* nonograde for programs in C and C++: black-and-white nonograms are graded and solved, checked, closed by line logic,
 * completed from a half-filled grid, and converted.
 *
 * Most calls take `buffer`, memory for the answer, and its length. Such a call writes the answer to the start of the
 * buffer, leaves the rest of the buffer as it was, and returns a status and the length of the answer in bytes. With status
 * 0 the answer is the text that the program prints. Otherwise it is the fault word, followed by a colon and a line number
 * if the fault is about a line, as in `BadNumber:5`. If the buffer is too small it stays as it was, and `length` is the
 * number of bytes needed. No answer ends with a zero byte.
 *
 * A pointer may be NULL if its length is 0. The buffer must not overlap the other arguments. Calls keep no state: several
 * threads may call at the same time, each with a buffer of its own. A call allocates by malloc, and frees all that it
 * allocated. */
#ifndef NONOGRADE_H
#define NONOGRADE_H

#include <stddef.h>
#include <stdint.h>

#ifdef __cplusplus
extern "C" {
#endif

/* The version of this header. nonograde_version returns that of the library. */
#define NONOGRADE_VERSION "0.3.0"

/* How a call ended. */
enum nonograde_status {
    NONOGRADE_OK = 0,
    NONOGRADE_BUFFER_TOO_SMALL = 1, /* the answer has more bytes than the buffer */
    NONOGRADE_BAD_SETTING = 2,      /* a setting is out of its range */
    NONOGRADE_UNKNOWN_FORMAT = 3,   /* not returned: another format is a bad setting */
    NONOGRADE_TOO_LONG = 4,         /* the text has more than 1,048,576 bytes */
    NONOGRADE_NO_SIZE = 5,          /* the text has no size */
    NONOGRADE_BAD_SIZE = 6,         /* the width or the height is no number from 1 to 256 */
    NONOGRADE_NO_SECTION = 7,       /* a section of clues is missing */
    NONOGRADE_BAD_LINE = 8,         /* a line belongs to no section, or is too long */
    NONOGRADE_TWICE = 9,            /* a line repeats a keyword */
    NONOGRADE_BAD_COUNT = 10,       /* the number of clue lines doesn't fit the size */
    NONOGRADE_BAD_NUMBER = 11,      /* a line is no clue */
    NONOGRADE_BAD_GOAL = 12,        /* the goal doesn't fit the size */
    NONOGRADE_AMBIGUOUS = 13,       /* in .nin the text would be read with width and height exchanged */
    NONOGRADE_NO_MEMORY = 14,       /* an allocation failed */
    NONOGRADE_BAD_CELLS = 15        /* the cells don't fit the puzzle */
};

/* The rule for the next guess: the first unknown cell, or the one with the most known neighbours. */
enum nonograde_pick { NONOGRADE_FIRST = 0, NONOGRADE_MOST = 1 };

/* The formats of texts: `.non`, `.mk` and `.nin`. */
enum nonograde_format { NONOGRADE_NON = 0, NONOGRADE_MK = 1, NONOGRADE_NIN = 2 };

/* How a grid is closed: by line logic, or by trials of single cells too. */
enum nonograde_closing { NONOGRADE_BY_LINES = 0, NONOGRADE_BY_TRIALS = 1 };

/* How many solutions a puzzle has: none, one, or at least two; or the limit on guesses cut the search short. */
enum nonograde_verdict { NONOGRADE_NONE = 0, NONOGRADE_ONE = 1, NONOGRADE_SEVERAL = 2, NONOGRADE_UNSETTLED = 3 };

/* What a puzzle takes: line logic alone, trials of single cells too, or a search. */
enum nonograde_grade { NONOGRADE_LINE = 0, NONOGRADE_TRIALS = 1, NONOGRADE_SEARCH = 2 };

/* Whether a text has a goal, and whether that meets the clues. */
enum nonograde_goal { NONOGRADE_ABSENT = 0, NONOGRADE_MEETS = 1, NONOGRADE_MISSES = 2 };

/* What grading finds of a puzzle. */
typedef struct nonograde_facts {
    uint32_t width, height; /* in cells, from 1 to 256 */
    uint32_t verdict;       /* an enum nonograde_verdict */
    uint32_t grade;         /* an enum nonograde_grade */
    uint32_t line_cells;    /* how many cells are known after line logic; 0 if that finds a contradiction */
    uint32_t trial_cells;   /* how many are known after trials; 0 if line logic or trials find a contradiction */
    uint32_t guesses;       /* how many guesses were made */
    uint32_t goal;          /* an enum nonograde_goal */
    uint32_t fault_line;    /* the number of the line that the fault of a refused text is about; 0 if there is none */
} nonograde_facts;

/* What a call returns: its status, and the length of the answer in bytes, even if the buffer is too small. */
typedef struct nonograde_reply {
    uint32_t status;
    size_t length;
} nonograde_reply;

/* Grades and solves the puzzle of a text in the format `format`. The answer is what `nonograde solve` prints, with `name`
 * as the name of the file. The search makes at most `guesses` guesses, from 0 to 1,000,000, by the rule `pick`. */
nonograde_reply nonograde_solve(const uint8_t *name, size_t name_length, const uint8_t *text, size_t text_length,
                                uint32_t format, uint32_t guesses, uint32_t pick, uint8_t *buffer, size_t buffer_length);

/* Grades the puzzle of a text in the format `format`, as nonograde_solve does. The answer is the line of JSON that
 * `nonograde survey --format json` prints of it as entry 1 with the name `name`: all that is known of the puzzle. */
nonograde_reply nonograde_report(const uint8_t *name, size_t name_length, const uint8_t *text, size_t text_length,
                                 uint32_t format, uint32_t guesses, uint32_t pick, uint8_t *buffer, size_t buffer_length);

/* Checks a text in the format `format`. The answer is what `nonograde check` prints about it, without the line of counts:
 * a line for each finding, which begins with `name`, and pictures of two solutions; nothing if there is no finding. A text
 * that is refused has a finding too, so the only faults are NONOGRADE_BAD_SETTING and NONOGRADE_NO_MEMORY. `guesses` and
 * `pick` are those of nonograde_solve. */
nonograde_reply nonograde_check(const uint8_t *name, size_t name_length, const uint8_t *text, size_t text_length,
                                uint32_t format, uint32_t guesses, uint32_t pick, uint8_t *buffer, size_t buffer_length);

/* Grades the puzzle of a text in the format `format`, as nonograde_solve does. Returns the status, and writes what it finds
 * to `facts`, which must not be NULL nor overlap the text. With a status other than 0 all facts but `fault_line` are 0. */
uint32_t nonograde_grade(const uint8_t *text, size_t text_length, uint32_t format, uint32_t guesses, uint32_t pick,
                         nonograde_facts *facts);

/* Closes the puzzle of a text in the format `format` by line logic. The answer is what `nonograde lines` prints. */
nonograde_reply nonograde_lines(const uint8_t *text, size_t text_length, uint32_t format, uint8_t *buffer,
                                size_t buffer_length);

/* Closes a grid of the puzzle of a text in the format `format`, some of whose cells are known: for a hint, or to see
 * that a player went wrong. `cells` has the cells row by row, `#` for filled, `.` for blank and `?` for unknown, either
 * without line ends, or with LF or CR LF after each row, where the last one may be missing. Cells that don't fit the puzzle
 * are NONOGRADE_BAD_CELLS. `by` is an enum nonograde_closing. The answer is as that of nonograde_lines: a line and the rows
 * of the closed grid, or `none 0` if line logic or trials find a contradiction. */
nonograde_reply nonograde_close(const uint8_t *text, size_t text_length, uint32_t format, const uint8_t *cells,
                                size_t cells_length, uint32_t by, uint8_t *buffer, size_t buffer_length);

/* Searches for the solutions of the puzzle of a text in the format `format` that extend a grid, some of whose cells are
 * known: whether the grid can still be solved, and in one way only. `cells` has the cells as for nonograde_close. The
 * answer is a line `VERDICT GUESSES` and the solutions, of several the first two, as `nonograde solve` prints them: each
 * is followed by an empty line. VERDICT is `none`, `one` or `several`, or `unsettled` if the search needs more guesses
 * than `guesses` allows, and GUESSES is how many it made. `guesses` and `pick` are those of nonograde_solve. */
nonograde_reply nonograde_extend(const uint8_t *text, size_t text_length, uint32_t format, const uint8_t *cells,
                                 size_t cells_length, uint32_t guesses, uint32_t pick, uint8_t *buffer,
                                 size_t buffer_length);

/* Converts the puzzle of a text from the format `format` to the format `to`. The answer is what `nonograde convert`
 * prints. */
nonograde_reply nonograde_convert(const uint8_t *text, size_t text_length, uint32_t format, uint32_t to, uint8_t *buffer,
                                  size_t buffer_length);

/* Returns the length of a buffer that holds each answer of nonograde_lines, nonograde_close and nonograde_extend, and with
 * `name_length` added each one of nonograde_solve, on puzzles of at most this width and height. For all puzzles, 256 by
 * 256, it is 131,641. The answers of nonograde_report, nonograde_check and nonograde_convert also have titles and other
 * texts, and can be longer. */
size_t nonograde_buffer_size(uint32_t width, uint32_t height);

/* Writes the version, as `nonograde --version` prints it. */
nonograde_reply nonograde_version(uint8_t *buffer, size_t buffer_length);

#ifdef __cplusplus
}
#endif

#endif
