/* Calls the library as a C program would: each status, buffers of each size, threads side by side, and each allocation
 * failing in turn. Prints the number of checks that passed and failed. Linked with --wrap=malloc and --wrap=realloc, so
 * that memory can be refused. */
#include "nonograde.h"

#include <pthread.h>
#include <stdio.h>
#include <stdlib.h>
#include <string.h>

enum { THREADS = 8, CALLS = 1000, BUFFER = 4096 };

static int passed, failed;
static _Thread_local int refuses;

/* The number of allocations up to the one that fails, counted from the next one; 0 if none does. */
static _Thread_local int until_failure;

void *__real_malloc(size_t size);
void *__real_realloc(void *old, size_t size);
void *__wrap_malloc(size_t size);
void *__wrap_realloc(void *old, size_t size);

/* Whether the next allocation fails. */
static int fails(void) { return refuses || (until_failure > 0 && --until_failure == 0); }

void *__wrap_malloc(size_t size) { return fails() ? NULL : __real_malloc(size); }

void *__wrap_realloc(void *old, size_t size) { return fails() ? NULL : __real_realloc(old, size); }

static void check(int holds, const char *what) {
    if (holds) {
        passed++;
    } else {
        failed++;
        printf("FAILED %s\n", what);
    }
}

static nonograde_reply solve(uint32_t format, const char *text, size_t text_length, uint32_t guesses, uint32_t pick,
                             uint8_t *buffer, size_t buffer_length) {
    return nonograde_solve((const uint8_t *)"two", 3, (const uint8_t *)text, text_length, format, guesses, pick, buffer,
                           buffer_length);
}

/* Whether a reply and a buffer are these. */
static int is(nonograde_reply reply, uint32_t status, const uint8_t *buffer, const char *wanted) {
    return reply.status == status && reply.length == strlen(wanted) && memcmp(buffer, wanted, reply.length) == 0;
}

static const char TWO[] = "2 2\n1\n1\n1\n1\n";
static const char TWO_SOLVED[] = "1 2x2 several search 0 0 2 absent two\n#.\n.#\n\n.#\n#.\n\n";

struct row {
    uint32_t format;
    const char *text, *wanted;
    uint32_t status;
};

static void check_statuses(void) {
    static const struct row rows[] = {
        {NONOGRADE_NIN, TWO, TWO_SOLVED, NONOGRADE_OK},
        {3, TWO, "BadSetting", NONOGRADE_BAD_SETTING},
        {NONOGRADE_NIN, "", "NoSize", NONOGRADE_NO_SIZE},
        {NONOGRADE_NIN, "1 257\n", "BadSize", NONOGRADE_BAD_SIZE},
        {NONOGRADE_NON, "width 1\nheight 1\n", "NoSection", NONOGRADE_NO_SECTION},
        {NONOGRADE_NON, "width 1\n1\nheight 1\nrows\n1\ncolumns\n1\n", "BadLine:2", NONOGRADE_BAD_LINE},
        {NONOGRADE_NON, "width 1\nwidth 1\nheight 1\nrows\n1\ncolumns\n1\n", "Twice:2", NONOGRADE_TWICE},
        {NONOGRADE_NIN, "1 1\n1\n", "BadCount", NONOGRADE_BAD_COUNT},
        {NONOGRADE_NIN, "1 1\n1\nx\n", "BadNumber:3", NONOGRADE_BAD_NUMBER},
        {NONOGRADE_NON, "width 1\nheight 1\nrows\n1\ncolumns\n1\ngoal 2\n", "BadGoal:7", NONOGRADE_BAD_GOAL},
    };
    uint8_t buffer[BUFFER];
    for (size_t i = 0; i < sizeof rows / sizeof *rows; i++) {
        nonograde_reply reply = solve(rows[i].format, rows[i].text, strlen(rows[i].text), 1000, 0, buffer, sizeof buffer);
        check(is(reply, rows[i].status, buffer, rows[i].wanted), rows[i].wanted);
    }
    check(is(solve(NONOGRADE_NIN, TWO, strlen(TWO), 1000001, 0, buffer, sizeof buffer), NONOGRADE_BAD_SETTING, buffer,
             "BadSetting"),
          "guesses past the limit");
    check(is(solve(NONOGRADE_NIN, TWO, strlen(TWO), 1000, 2, buffer, sizeof buffer), NONOGRADE_BAD_SETTING, buffer,
             "BadSetting"),
          "no such rule");
    check(is(solve(NONOGRADE_NIN, TWO, strlen(TWO), 1000, NONOGRADE_MOST, buffer, sizeof buffer), NONOGRADE_OK, buffer,
             TWO_SOLVED),
          "the other rule");
    char *blank = calloc(1048577, 1);
    check(is(solve(NONOGRADE_NIN, blank, 1048577, 1000, 0, buffer, sizeof buffer), NONOGRADE_TOO_LONG, buffer, "TooLong"),
          "TooLong");
    free(blank);
    refuses = 1;
    nonograde_reply refused = solve(NONOGRADE_NIN, TWO, strlen(TWO), 1000, 0, buffer, sizeof buffer);
    refuses = 0;
    check(is(refused, NONOGRADE_NO_MEMORY, buffer, "NoMemory"), "NoMemory");
}

/* The line of JSON on TWO with a name. */
#define TWO_REPORT(name)                                                                                                   \
    "{\"by\":null,\"catalogue\":null,\"columns\":[[1],[1]],\"copyright\":null,\"differing\":[\"**\",\"**\"],"              \
    "\"fault\":null,\"fault_line\":null,\"goal\":\"absent\",\"goal_rows\":null,\"grade\":\"search\",\"guesses\":2,"        \
    "\"height\":2,\"license\":null,\"line_cells\":0,\"message\":\"at least two solutions, which differ in 4 of 4 "         \
    "cells\","                                                                                                             \
    "\"misfits\":[],\"name\":\"" name                                                                                      \
    "\",\"number\":1,\"rows\":[[1],[1]],\"solutions\":[[\"#.\",\".#\"],[\".#\",\"#.\"]],"                                  \
    "\"sums\":{\"columns\":2,\"rows\":2},\"title\":null,\"trial_cells\":0,\"verdict\":\"several\",\"width\":2}\n"

/* What is wrong with TWO, after the name. */
#define TWO_CHECKED ": error: at least two solutions, which differ in 4 of 4 cells\n    #.   .#   **\n    .#   #.   **\n"

static void check_other_calls(void) {
    uint8_t buffer[BUFFER];
    const uint8_t *text = (const uint8_t *)TWO, *name = (const uint8_t *)"two";
    nonograde_reply reply = nonograde_report(name, 3, text, strlen(TWO), NONOGRADE_NIN, 1000, 0, buffer, sizeof buffer);
    check(is(reply, NONOGRADE_OK, buffer, TWO_REPORT("two")), "report");
    reply = nonograde_report(name, 3, text, strlen(TWO), 3, 1000, 0, buffer, sizeof buffer);
    check(is(reply, NONOGRADE_BAD_SETTING, buffer, "BadSetting"), "report, no such format");
    reply = nonograde_report(name, 3, text, strlen(TWO), NONOGRADE_NIN, 1000001, 0, buffer, sizeof buffer);
    check(is(reply, NONOGRADE_BAD_SETTING, buffer, "BadSetting"), "report, guesses past the limit");
    reply = nonograde_report(name, 3, text, 5, NONOGRADE_NIN, 1000, 0, buffer, sizeof buffer);
    check(is(reply, NONOGRADE_BAD_COUNT, buffer, "BadCount"), "report, a fault");
    reply = nonograde_check(name, 3, text, strlen(TWO), NONOGRADE_NIN, 1000, 0, buffer, sizeof buffer);
    check(is(reply, NONOGRADE_OK, buffer, "two" TWO_CHECKED), "check");
    reply = nonograde_check(name, 3, text, strlen(TWO), NONOGRADE_NIN, 1, NONOGRADE_MOST, buffer, sizeof buffer);
    check(is(reply, NONOGRADE_OK, buffer, "two: warning: not settled within 1 guess (try --guesses 1000000)\n"), "check, too few guesses");
    reply = nonograde_lines(text, strlen(TWO), NONOGRADE_NIN, buffer, sizeof buffer);
    check(is(reply, NONOGRADE_OK, buffer, "open 0\n??\n??\n"), "lines");
    reply = nonograde_lines(text, strlen(TWO), 3, buffer, sizeof buffer);
    check(is(reply, NONOGRADE_BAD_SETTING, buffer, "BadSetting"), "lines, no such format");
    reply = nonograde_convert(text, strlen(TWO), NONOGRADE_NIN, NONOGRADE_MK, buffer, sizeof buffer);
    check(is(reply, NONOGRADE_OK, buffer, "2 2\n1\n1\n#\n1\n1\n"), "convert");
    reply = nonograde_convert(text, strlen(TWO), NONOGRADE_NIN, 3, buffer, sizeof buffer);
    check(is(reply, NONOGRADE_BAD_SETTING, buffer, "BadSetting"), "convert to no such format");
    reply = nonograde_convert(text, strlen(TWO), 3, NONOGRADE_MK, buffer, sizeof buffer);
    check(is(reply, NONOGRADE_BAD_SETTING, buffer, "BadSetting"), "convert, no such format");
    const char *flat = "1 2\n1\n#\n1\n2\n";
    reply = nonograde_convert((const uint8_t *)flat, strlen(flat), NONOGRADE_MK, NONOGRADE_NIN, buffer, sizeof buffer);
    check(is(reply, NONOGRADE_AMBIGUOUS, buffer, "Ambiguous"), "Ambiguous");
    reply = nonograde_version(buffer, sizeof buffer);
    check(is(reply, NONOGRADE_OK, buffer, NONOGRADE_VERSION), "version");
}

static nonograde_reply close_two(uint32_t format, const char *cells, uint32_t by, uint8_t *buffer, size_t buffer_length) {
    return nonograde_close((const uint8_t *)TWO, strlen(TWO), format, (const uint8_t *)cells, strlen(cells), by, buffer,
                           buffer_length);
}

static void check_close(void) {
    static const struct {
        const char *cells, *wanted;
        uint32_t by, status;
    } rows[] = {
        {"????", "open 0\n??\n??\n", NONOGRADE_BY_LINES, NONOGRADE_OK},
        {"????", "open 0\n??\n??\n", NONOGRADE_BY_TRIALS, NONOGRADE_OK},
        {"#???", "one 4\n#.\n.#\n", NONOGRADE_BY_LINES, NONOGRADE_OK},
        {"??\n?.", "one 4\n.#\n#.\n", NONOGRADE_BY_LINES, NONOGRADE_OK},
        {"?#\n??\n", "one 4\n.#\n#.\n", NONOGRADE_BY_TRIALS, NONOGRADE_OK},
        {"#?\r\n??\n", "one 4\n#.\n.#\n", NONOGRADE_BY_LINES, NONOGRADE_OK},
        {"#.\r\n.#\r\n", "one 4\n#.\n.#\n", NONOGRADE_BY_LINES, NONOGRADE_OK},
        {"##??", "none 0\n", NONOGRADE_BY_LINES, NONOGRADE_OK},
        {"....", "none 0\n", NONOGRADE_BY_TRIALS, NONOGRADE_OK},
        {"", "BadCells", NONOGRADE_BY_LINES, NONOGRADE_BAD_CELLS},
        {"???", "BadCells", NONOGRADE_BY_LINES, NONOGRADE_BAD_CELLS},
        {"?????", "BadCells", NONOGRADE_BY_LINES, NONOGRADE_BAD_CELLS},
        {"???x", "BadCells", NONOGRADE_BY_TRIALS, NONOGRADE_BAD_CELLS},
        {"???\n?", "BadCells", NONOGRADE_BY_LINES, NONOGRADE_BAD_CELLS},
        {"??\r??", "BadCells", NONOGRADE_BY_LINES, NONOGRADE_BAD_CELLS},
        {"??\n??\n\n", "BadCells", NONOGRADE_BY_LINES, NONOGRADE_BAD_CELLS},
        {"????", "BadSetting", 2, NONOGRADE_BAD_SETTING},
        {"?", "BadSetting", UINT32_MAX, NONOGRADE_BAD_SETTING},
    };
    uint8_t buffer[BUFFER];
    for (size_t i = 0; i < sizeof rows / sizeof *rows; i++) {
        nonograde_reply reply = close_two(NONOGRADE_NIN, rows[i].cells, rows[i].by, buffer, sizeof buffer);
        check(is(reply, rows[i].status, buffer, rows[i].wanted), rows[i].cells);
    }
    check(is(close_two(3, "????", NONOGRADE_BY_LINES, buffer, sizeof buffer), NONOGRADE_BAD_SETTING, buffer, "BadSetting"),
          "close, no such format");
    check(is(close_two(NONOGRADE_NON, "?", NONOGRADE_BY_LINES, buffer, sizeof buffer), NONOGRADE_NO_SIZE, buffer, "NoSize"),
          "a fault of the text before one of the cells");
}

static nonograde_reply extend_two(uint32_t format, const char *cells, uint32_t guesses, uint32_t pick, uint8_t *buffer,
                                  size_t buffer_length) {
    return nonograde_extend((const uint8_t *)TWO, strlen(TWO), format, (const uint8_t *)cells, strlen(cells), guesses, pick,
                            buffer, buffer_length);
}

static const char TWO_EXTENDED[] = "several 2\n#.\n.#\n\n.#\n#.\n\n";

static void check_extend(void) {
    static const struct {
        const char *cells, *wanted;
        uint32_t guesses, pick, status;
    } rows[] = {
        {"????", TWO_EXTENDED, 1000, NONOGRADE_FIRST, NONOGRADE_OK},
        {"????", TWO_EXTENDED, 1000000, NONOGRADE_MOST, NONOGRADE_OK},
        {"????", TWO_EXTENDED, 2, NONOGRADE_FIRST, NONOGRADE_OK},
        {"????", "unsettled 1\n#.\n.#\n\n", 1, NONOGRADE_FIRST, NONOGRADE_OK},
        {"????", "unsettled 0\n", 0, NONOGRADE_FIRST, NONOGRADE_OK},
        {"#???", "one 0\n#.\n.#\n\n", 0, NONOGRADE_FIRST, NONOGRADE_OK},
        {"??\n?.", "one 0\n.#\n#.\n\n", 1000, NONOGRADE_MOST, NONOGRADE_OK},
        {"?#\r\n??\n", "one 0\n.#\n#.\n\n", 1000, NONOGRADE_FIRST, NONOGRADE_OK},
        {"#.\n.#\n", "one 0\n#.\n.#\n\n", 1000, NONOGRADE_FIRST, NONOGRADE_OK},
        {"##??", "none 0\n", 1000, NONOGRADE_FIRST, NONOGRADE_OK},
        {"....", "none 0\n", 0, NONOGRADE_FIRST, NONOGRADE_OK},
        {"", "BadCells", 1000, NONOGRADE_FIRST, NONOGRADE_BAD_CELLS},
        {"???", "BadCells", 1000, NONOGRADE_FIRST, NONOGRADE_BAD_CELLS},
        {"?????", "BadCells", 1000, NONOGRADE_FIRST, NONOGRADE_BAD_CELLS},
        {"???x", "BadCells", 1000, NONOGRADE_FIRST, NONOGRADE_BAD_CELLS},
        {"??\r??", "BadCells", 1000, NONOGRADE_FIRST, NONOGRADE_BAD_CELLS},
        {"????", "BadSetting", 1000001, NONOGRADE_FIRST, NONOGRADE_BAD_SETTING},
        {"?", "BadSetting", UINT32_MAX, NONOGRADE_MOST, NONOGRADE_BAD_SETTING},
        {"????", "BadSetting", 1000, 2, NONOGRADE_BAD_SETTING},
    };
    uint8_t buffer[BUFFER];
    for (size_t i = 0; i < sizeof rows / sizeof *rows; i++) {
        nonograde_reply reply =
            extend_two(NONOGRADE_NIN, rows[i].cells, rows[i].guesses, rows[i].pick, buffer, sizeof buffer);
        check(is(reply, rows[i].status, buffer, rows[i].wanted), rows[i].wanted);
    }
    check(is(extend_two(3, "????", 1000, 0, buffer, sizeof buffer), NONOGRADE_BAD_SETTING, buffer, "BadSetting"),
          "extend, no such format");
    check(is(extend_two(NONOGRADE_NON, "?", 1000, 0, buffer, sizeof buffer), NONOGRADE_NO_SIZE, buffer, "NoSize"),
          "extend, a fault of the text before one of the cells");
}

/* NULL with the length 0 stands for an empty name, an empty buffer and no cells. */
static void check_null(void) {
    uint8_t buffer[BUFFER];
    const uint8_t *text = (const uint8_t *)TWO;
    const char *unnamed = "1 2x2 several search 0 0 2 absent \n#.\n.#\n\n.#\n#.\n\n";
    nonograde_reply reply =
        nonograde_solve(NULL, 0, text, strlen(TWO), NONOGRADE_NIN, 1000, NONOGRADE_FIRST, buffer, sizeof buffer);
    check(is(reply, NONOGRADE_OK, buffer, unnamed), "NULL as the name");
    reply = nonograde_solve(NULL, 0, text, strlen(TWO), NONOGRADE_NIN, 1000, NONOGRADE_FIRST, NULL, 0);
    check(reply.status == NONOGRADE_BUFFER_TOO_SMALL && reply.length == strlen(unnamed), "NULL as the buffer of solve");
    reply = nonograde_report(NULL, 0, text, strlen(TWO), NONOGRADE_NIN, 1000, NONOGRADE_FIRST, NULL, 0);
    check(reply.status == NONOGRADE_BUFFER_TOO_SMALL && reply.length == strlen(TWO_REPORT("")),
          "NULL as the buffer of report");
    reply = nonograde_check(NULL, 0, text, strlen(TWO), NONOGRADE_NIN, 1000, NONOGRADE_FIRST, NULL, 0);
    check(reply.status == NONOGRADE_BUFFER_TOO_SMALL && reply.length == strlen(TWO_CHECKED), "NULL as the buffer of check");
    reply = nonograde_lines(text, strlen(TWO), NONOGRADE_NIN, NULL, 0);
    check(reply.status == NONOGRADE_BUFFER_TOO_SMALL && reply.length == 13, "NULL as the buffer of lines");
    reply = close_two(NONOGRADE_NIN, "#???", NONOGRADE_BY_LINES, NULL, 0);
    check(reply.status == NONOGRADE_BUFFER_TOO_SMALL && reply.length == 12, "NULL as the buffer of close");
    reply = nonograde_close(text, strlen(TWO), NONOGRADE_NIN, NULL, 0, NONOGRADE_BY_LINES, buffer, sizeof buffer);
    check(is(reply, NONOGRADE_BAD_CELLS, buffer, "BadCells"), "NULL as the cells");
    reply = extend_two(NONOGRADE_NIN, "#???", 1000, NONOGRADE_FIRST, NULL, 0);
    check(reply.status == NONOGRADE_BUFFER_TOO_SMALL && reply.length == 13, "NULL as the buffer of extend");
    reply = nonograde_extend(text, strlen(TWO), NONOGRADE_NIN, NULL, 0, 1000, NONOGRADE_FIRST, buffer, sizeof buffer);
    check(is(reply, NONOGRADE_BAD_CELLS, buffer, "BadCells"), "NULL as the cells of extend");
    reply = nonograde_convert(text, strlen(TWO), NONOGRADE_NIN, NONOGRADE_NIN, NULL, 0);
    check(reply.status == NONOGRADE_BUFFER_TOO_SMALL && reply.length == strlen(TWO), "NULL as the buffer of convert");
    reply = nonograde_version(NULL, 0);
    check(reply.status == NONOGRADE_BUFFER_TOO_SMALL && reply.length == strlen(NONOGRADE_VERSION),
          "NULL as that of version");
}

/* NULL with the length 0 stands for an empty text, which has no size. */
static void check_null_text(uint32_t format) {
    uint8_t buffer[BUFFER];
    nonograde_reply reply = solve(format, NULL, 0, 1000, NONOGRADE_FIRST, buffer, sizeof buffer);
    check(is(reply, NONOGRADE_NO_SIZE, buffer, "NoSize"), "NULL as the text of solve");
    reply = nonograde_report(NULL, 0, NULL, 0, format, 1000, NONOGRADE_FIRST, buffer, sizeof buffer);
    check(is(reply, NONOGRADE_NO_SIZE, buffer, "NoSize"), "NULL as the text of report");
    reply = nonograde_lines(NULL, 0, format, buffer, sizeof buffer);
    check(is(reply, NONOGRADE_NO_SIZE, buffer, "NoSize"), "NULL as the text of lines");
    reply = nonograde_close(NULL, 0, format, NULL, 0, NONOGRADE_BY_LINES, buffer, sizeof buffer);
    check(is(reply, NONOGRADE_NO_SIZE, buffer, "NoSize"), "NULL as the text of close");
    reply = nonograde_extend(NULL, 0, format, NULL, 0, 1000, NONOGRADE_FIRST, buffer, sizeof buffer);
    check(is(reply, NONOGRADE_NO_SIZE, buffer, "NoSize"), "NULL as the text of extend");
    reply = nonograde_convert(NULL, 0, format, NONOGRADE_NON, buffer, sizeof buffer);
    check(is(reply, NONOGRADE_NO_SIZE, buffer, "NoSize"), "NULL as the text of convert");
    nonograde_facts facts;
    check(nonograde_grade(NULL, 0, format, 1000, NONOGRADE_FIRST, &facts) == NONOGRADE_NO_SIZE, "NULL as the text of grade");
}

/* Whether facts are these. */
static int are(const nonograde_facts *facts, nonograde_facts wanted) { return memcmp(facts, &wanted, sizeof wanted) == 0; }

static uint32_t grade(const char *text, uint32_t format, uint32_t guesses, uint32_t pick, nonograde_facts *facts) {
    memset(facts, 7, sizeof *facts);
    return nonograde_grade((const uint8_t *)text, strlen(text), format, guesses, pick, facts);
}

#define GOAL(bits) "width 2\nheight 2\nrows\n1\n2\ncolumns\n2\n1\ngoal " bits "\n"

static void check_facts(void) {
    static const struct {
        uint32_t format, guesses;
        const char *text;
        nonograde_facts wanted;
        uint32_t status;
    } rows[] = {
        {2, 1000, TWO, {2, 2, NONOGRADE_SEVERAL, NONOGRADE_SEARCH, 0, 0, 2, NONOGRADE_ABSENT, 0}, NONOGRADE_OK},
        {2, 1, TWO, {2, 2, NONOGRADE_UNSETTLED, NONOGRADE_SEARCH, 0, 0, 1, NONOGRADE_ABSENT, 0}, NONOGRADE_OK},
        {2, 9, "3 1\n2\n1\n1\n0\n", {3, 1, NONOGRADE_ONE, NONOGRADE_LINE, 3, 3, 0, NONOGRADE_ABSENT, 0}, NONOGRADE_OK},
        {2, 9, "1 1\n1\n0\n", {1, 1, NONOGRADE_NONE, NONOGRADE_LINE, 0, 0, 0, NONOGRADE_ABSENT, 0}, NONOGRADE_OK},
        {0, 9, GOAL("1011"), {2, 2, NONOGRADE_ONE, NONOGRADE_LINE, 4, 4, 0, NONOGRADE_MEETS, 0}, NONOGRADE_OK},
        {0, 9, GOAL("0111"), {2, 2, NONOGRADE_ONE, NONOGRADE_LINE, 4, 4, 0, NONOGRADE_MISSES, 0}, NONOGRADE_OK},
        {0, 9, GOAL("1"), {.fault_line = 9}, NONOGRADE_BAD_GOAL},
        {2, 9, "1 1\n1\nx\n", {.fault_line = 3}, NONOGRADE_BAD_NUMBER},
        {2, 9, "1 1\n1\n", {.fault_line = 0}, NONOGRADE_BAD_COUNT},
        {3, 9, TWO, {.fault_line = 0}, NONOGRADE_BAD_SETTING},
        {2, 1000001, TWO, {.fault_line = 0}, NONOGRADE_BAD_SETTING},
    };
    nonograde_facts facts;
    for (size_t i = 0; i < sizeof rows / sizeof *rows; i++) {
        uint32_t status = grade(rows[i].text, rows[i].format, rows[i].guesses, NONOGRADE_FIRST, &facts);
        check(status == rows[i].status && are(&facts, rows[i].wanted), rows[i].text);
    }
    check(grade(TWO, NONOGRADE_NIN, 9, 2, &facts) == NONOGRADE_BAD_SETTING && are(&facts, (nonograde_facts){0}),
          "no such rule");
}

/* A puzzle of 2 by 200 with two solutions, whose first two rows have a filled cell: two grids and a line fit into a
 * buffer of the length that the library says. */
static void check_buffer_size(void) {
    check(nonograde_buffer_size(0, 0) == 57, "the length for a puzzle without cells");
    check(nonograde_buffer_size(2, 200) == 55 + 2 * (200 * 3 + 1), "the length for 2 by 200");
    check(nonograde_buffer_size(256, 256) == 131641, "the length for the largest puzzles");
    check(nonograde_buffer_size(UINT32_MAX, UINT32_MAX) == 131641, "the length for sides that are too large");
    check(nonograde_buffer_size(257, 1) == nonograde_buffer_size(256, 1), "the length for a width that is too large");
    check(nonograde_buffer_size(1, 257) == nonograde_buffer_size(1, 256), "the length for a height that is too large");
    char text[BUFFER] = "2 200\n1\n1\n";
    for (int row = 2; row < 200; row++) {
        strcat(text, "0\n");
    }
    strcat(text, "1\n1\n");
    const uint8_t *bytes = (const uint8_t *)text;
    size_t size = nonograde_buffer_size(2, 200);
    uint8_t *buffer = malloc(size);
    nonograde_reply reply = nonograde_solve(NULL, 0, bytes, strlen(text), NONOGRADE_NIN, 1000, 0, buffer, size);
    check(reply.status == NONOGRADE_OK && reply.length > 2 * (200 * 3 + 1), "a buffer for two solutions");
    reply = nonograde_lines(bytes, strlen(text), NONOGRADE_NIN, buffer, size);
    check(reply.status == NONOGRADE_OK && reply.length > 200 * 3, "a buffer for line logic");
    uint8_t cells[2 * 200];
    memset(cells, '?', sizeof cells);
    reply = nonograde_close(bytes, strlen(text), NONOGRADE_NIN, cells, sizeof cells, NONOGRADE_BY_TRIALS, buffer, size);
    check(reply.status == NONOGRADE_OK && reply.length > 200 * 3, "a buffer for a closed grid");
    reply = nonograde_extend(bytes, strlen(text), NONOGRADE_NIN, cells, sizeof cells, 1000, 0, buffer, size);
    check(reply.status == NONOGRADE_OK && reply.length > 2 * (200 * 3 + 1), "a buffer for two solutions that extend a grid");
    free(buffer);
}

#define DEMO_CLUES "2\n2,1\n1,1\n3\n1,1\n1,1\n2\n1,1\n1,2\n2\n\ncolumns\n2,1\n2,1,3\n7\n1,3\n2,1\n"
#define DEMO_GOAL "goal \"01100011010010101110101001010000110010100101111000\"\n"
#define DEMO "title \"Demo\"\nwidth 5\nheight 10\n\nrows\n" DEMO_CLUES "\n" DEMO_GOAL
#define DEMO_GRID ".##..\n.##.#\n..#.#\n.###.\n#.#..\n#.#..\n..##.\n.#.#.\n.#.##\n##...\n"
#define BAD_CHECKED "puzzle:3: error: \"x\" is not a clue (at most 128 numbers from 1 to 256, or 0 alone)\n"
#define PAIR "2 4\n2\n1 1\n#\n1\n1\n1\n1\n"

enum kind { SOLVE, REPORT, CHECK, GRADE, LINES, CLOSE, EXTEND, CONVERT, VERSION };

/* A call with its settings, and its answer if no allocation fails. */
struct call {
    enum kind kind;
    uint32_t format, setting;
    const char *text, *wanted;
    uint32_t status;
};

/* The reply of a call for the status of grading and its facts, as numbers that are written to the buffer; or for a fault
 * its word, if the facts are all 0. */
static nonograde_reply reply_of_facts(uint32_t status, const nonograde_facts *facts, uint8_t *buffer) {
    static const char *const words[] = {
        [NONOGRADE_BAD_SETTING] = "BadSetting", [NONOGRADE_TOO_LONG] = "TooLong", [NONOGRADE_NO_MEMORY] = "NoMemory"};
    nonograde_reply reply = {status, 0};
    if (status == NONOGRADE_OK) {
        reply.length =
            (size_t)snprintf((char *)buffer, BUFFER, "%u %u %u %u %u %u %u %u", facts->width, facts->height, facts->verdict,
                             facts->grade, facts->line_cells, facts->trial_cells, facts->guesses, facts->goal);
    } else if (status <= NONOGRADE_NO_MEMORY && words[status] && are(facts, (nonograde_facts){0})) {
        reply.length = strlen(words[status]);
        memcpy(buffer, words[status], reply.length);
    }
    return reply;
}

static nonograde_reply reply_to(const struct call *call, uint8_t *buffer, size_t size) {
    const uint8_t *name = (const uint8_t *)"puzzle", *text = (const uint8_t *)call->text;
    size_t length = strlen(call->text);
    nonograde_facts facts;
    switch (call->kind) {
    case SOLVE:
        return nonograde_solve(name, 6, text, length, call->format, call->setting, NONOGRADE_FIRST, buffer, size);
    case REPORT:
        return nonograde_report(name, 6, text, length, call->format, call->setting, NONOGRADE_FIRST, buffer, size);
    case CHECK:
        return nonograde_check(name, 6, text, length, call->format, call->setting, NONOGRADE_FIRST, buffer, size);
    case GRADE:
        return reply_of_facts(grade(call->text, call->format, call->setting, NONOGRADE_FIRST, &facts), &facts, buffer);
    case LINES:
        return nonograde_lines(text, length, call->format, buffer, size);
    case CLOSE:
        return nonograde_close(text, length, call->format, (const uint8_t *)"?.\n??", 5, call->setting, buffer, size);
    case EXTEND:
        return nonograde_extend(text, length, call->format, (const uint8_t *)"????", 4, call->setting, NONOGRADE_FIRST,
                                buffer, size);
    case CONVERT:
        return nonograde_convert(text, length, call->format, call->setting, buffer, size);
    default:
        return nonograde_version(buffer, size);
    }
}

/* Calls that allocate, at least one of each kind. */
static const struct call answered[] = {
    {LINES, NONOGRADE_NON, 0, DEMO, "one 50\n" DEMO_GRID, NONOGRADE_OK},
    {SOLVE, NONOGRADE_NON, 1000, DEMO, "1 5x10 one line 50 50 0 meets puzzle\n" DEMO_GRID "\n", NONOGRADE_OK},
    {SOLVE, NONOGRADE_NIN, 2, TWO, "1 2x2 several search 0 0 2 absent puzzle\n#.\n.#\n\n.#\n#.\n\n", NONOGRADE_OK},
    {REPORT, NONOGRADE_NIN, 2, TWO, TWO_REPORT("puzzle"), NONOGRADE_OK},
    {CHECK, NONOGRADE_NIN, 2, TWO, "puzzle" TWO_CHECKED, NONOGRADE_OK},
    {CHECK, NONOGRADE_NIN, 2, "1 1\n1\nx\n", BAD_CHECKED, NONOGRADE_OK},
    {CHECK, NONOGRADE_NON, 1000, DEMO, "", NONOGRADE_OK},
    {GRADE, NONOGRADE_NIN, 2, TWO, "2 2 2 2 0 0 2 0", NONOGRADE_OK},
    {GRADE, NONOGRADE_NON, 1000, DEMO, "5 10 1 0 50 50 0 1", NONOGRADE_OK},
    {CLOSE, NONOGRADE_NIN, NONOGRADE_BY_LINES, TWO, "one 4\n#.\n.#\n", NONOGRADE_OK},
    {CLOSE, NONOGRADE_NIN, NONOGRADE_BY_TRIALS, TWO, "one 4\n#.\n.#\n", NONOGRADE_OK},
    {CLOSE, NONOGRADE_NON, NONOGRADE_BY_LINES, DEMO, "BadCells", NONOGRADE_BAD_CELLS},
    {EXTEND, NONOGRADE_NIN, 1000, TWO, TWO_EXTENDED, NONOGRADE_OK},
    {EXTEND, NONOGRADE_NIN, 1, TWO, "unsettled 1\n#.\n.#\n\n", NONOGRADE_OK},
    {EXTEND, NONOGRADE_NON, 1000, DEMO, "BadCells", NONOGRADE_BAD_CELLS},
    {CONVERT, NONOGRADE_NON, NONOGRADE_NON, DEMO, DEMO, NONOGRADE_OK},
    {CONVERT, NONOGRADE_NON, NONOGRADE_NIN, DEMO,
     "5 10\n2\n2 1\n1 1\n3\n1 1\n1 1\n2\n1 1\n1 2\n2\n2 1\n2 1 3\n7\n1 3\n2 1\n", NONOGRADE_OK},
    {CONVERT, NONOGRADE_MK, NONOGRADE_MK, PAIR, PAIR, NONOGRADE_OK},
    {CONVERT, NONOGRADE_MK, NONOGRADE_NIN, "1 2\n1\n#\n1\n2\n", "Ambiguous", NONOGRADE_AMBIGUOUS},
};

/* Each allocation of a call fails in turn. Each time the answer is NoMemory or the usual one, and the next call has the
 * usual answer. */
static void check_failures(void) {
    uint8_t buffer[BUFFER];
    for (size_t i = 0; i < sizeof answered / sizeof *answered; i++) {
        const struct call *call = &answered[i];
        int holds = 1, failures = -1, failed_allocation;
        do {
            failures++;
            until_failure = failures + 1;
            nonograde_reply reply = reply_to(call, buffer, sizeof buffer);
            failed_allocation = until_failure == 0;
            until_failure = 0;
            holds = holds && (is(reply, call->status, buffer, call->wanted) ||
                              (failed_allocation && is(reply, NONOGRADE_NO_MEMORY, buffer, "NoMemory")));
            holds = holds && is(reply_to(call, buffer, sizeof buffer), call->status, buffer, call->wanted);
        } while (failed_allocation);
        check(holds && failures > 1, call->wanted);
    }
}

/* Whether a call writes its answer to a buffer of some size, or nothing if that is too small, and no other byte. */
static int keeps_to_buffer(const struct call *call, size_t size) {
    size_t need = strlen(call->wanted), written = size < need ? 0 : need;
    uint8_t *buffer = malloc(size + 1);
    memset(buffer, 7, size + 1);
    nonograde_reply reply = reply_to(call, buffer, size);
    int holds = reply.length == need && reply.status == (size < need ? NONOGRADE_BUFFER_TOO_SMALL : call->status);
    holds = holds && memcmp(buffer, call->wanted, written) == 0;
    for (size_t place = written; place <= size; place++) {
        holds = holds && buffer[place] == 7;
    }
    free(buffer);
    return holds;
}

/* Buffers of each size up to one that is longer than the answer. */
static void check_sizes(const struct call *call) {
    for (size_t size = 0; size <= strlen(call->wanted) + 1; size++) {
        check(keeps_to_buffer(call, size), call->wanted);
    }
}

/* Each call that has a buffer, with answers and with faults. */
static void check_buffers(void) {
    static const struct call others[] = {
        {SOLVE, NONOGRADE_NIN, 9, "1 1\n1\nx\n", "BadNumber:3", NONOGRADE_BAD_NUMBER},
        {REPORT, NONOGRADE_NIN, 9, "1 1\n1\nx\n", "BadNumber:3", NONOGRADE_BAD_NUMBER},
        {LINES, 3, 0, TWO, "BadSetting", NONOGRADE_BAD_SETTING},
        {VERSION, 0, 0, "", NONOGRADE_VERSION, NONOGRADE_OK},
    };
    for (size_t i = 0; i < sizeof answered / sizeof *answered; i++) {
        if (answered[i].kind != GRADE) {
            check_sizes(&answered[i]);
        }
    }
    for (size_t i = 0; i < sizeof others / sizeof *others; i++) {
        check_sizes(&others[i]);
    }
}

/* With all allocations failing these faults are still reported. */
static void check_faults_without_memory(void) {
    static char blank[1048578];
    memset(blank, '\n', sizeof blank - 1);
    const struct call calls[] = {
        {LINES, NONOGRADE_NON, 0, blank, "TooLong", NONOGRADE_TOO_LONG},
        {SOLVE, NONOGRADE_MK, 1000, blank, "TooLong", NONOGRADE_TOO_LONG},
        {REPORT, NONOGRADE_NIN, 1000, blank, "TooLong", NONOGRADE_TOO_LONG},
        {GRADE, NONOGRADE_MK, 1000, blank, "TooLong", NONOGRADE_TOO_LONG},
        {CLOSE, NONOGRADE_NIN, NONOGRADE_BY_TRIALS, blank, "TooLong", NONOGRADE_TOO_LONG},
        {EXTEND, NONOGRADE_NIN, 1000000, blank, "TooLong", NONOGRADE_TOO_LONG},
        {CONVERT, NONOGRADE_NIN, NONOGRADE_NON, blank, "TooLong", NONOGRADE_TOO_LONG},
        {LINES, 3, 0, blank, "BadSetting", NONOGRADE_BAD_SETTING},
        {SOLVE, 3, 1000, blank, "BadSetting", NONOGRADE_BAD_SETTING},
        {SOLVE, NONOGRADE_NON, 1000001, blank, "BadSetting", NONOGRADE_BAD_SETTING},
        {REPORT, 3, 1000, blank, "BadSetting", NONOGRADE_BAD_SETTING},
        {REPORT, NONOGRADE_NON, 1000001, blank, "BadSetting", NONOGRADE_BAD_SETTING},
        {CHECK, 3, 1000, blank, "BadSetting", NONOGRADE_BAD_SETTING},
        {CHECK, NONOGRADE_NON, 1000001, blank, "BadSetting", NONOGRADE_BAD_SETTING},
        {GRADE, 3, 1000, blank, "BadSetting", NONOGRADE_BAD_SETTING},
        {GRADE, NONOGRADE_NON, 1000001, blank, "BadSetting", NONOGRADE_BAD_SETTING},
        {CLOSE, 3, NONOGRADE_BY_LINES, blank, "BadSetting", NONOGRADE_BAD_SETTING},
        {CLOSE, NONOGRADE_NON, 2, blank, "BadSetting", NONOGRADE_BAD_SETTING},
        {EXTEND, 3, 1000, blank, "BadSetting", NONOGRADE_BAD_SETTING},
        {EXTEND, NONOGRADE_NON, 1000001, blank, "BadSetting", NONOGRADE_BAD_SETTING},
        {CONVERT, 3, NONOGRADE_NON, blank, "BadSetting", NONOGRADE_BAD_SETTING},
        {CONVERT, NONOGRADE_NON, 3, blank, "BadSetting", NONOGRADE_BAD_SETTING},
    };
    uint8_t buffer[BUFFER];
    for (size_t i = 0; i < sizeof calls / sizeof *calls; i++) {
        refuses = 1;
        nonograde_reply reply = reply_to(&calls[i], buffer, sizeof buffer);
        refuses = 0;
        check(is(reply, calls[i].status, buffer, calls[i].wanted), "a fault without memory");
    }
}

static void *call_often(void *wrong) {
    uint8_t buffer[BUFFER];
    for (int i = 0; i < CALLS; i++) {
        const struct call *call = &answered[i % (sizeof answered / sizeof *answered)];
        nonograde_reply reply = reply_to(call, buffer, sizeof buffer);
        *(int *)wrong += !is(reply, call->status, buffer, call->wanted);
    }
    return NULL;
}

static void check_threads(void) {
    pthread_t threads[THREADS];
    int wrong[THREADS] = {0};
    for (int i = 0; i < THREADS; i++) {
        check(pthread_create(&threads[i], NULL, call_often, &wrong[i]) == 0, "a thread");
    }
    for (int i = 0; i < THREADS; i++) {
        pthread_join(threads[i], NULL);
        check(wrong[i] == 0, "calls side by side");
    }
}

int main(void) {
    check_statuses();
    check_other_calls();
    check_facts();
    check_close();
    check_extend();
    check_null();
    for (uint32_t format = NONOGRADE_NON; format <= NONOGRADE_NIN; format++) {
        check_null_text(format);
    }
    check_failures();
    check_faults_without_memory();
    check_buffers();
    check_buffer_size();
    check_threads();
    printf("%d passed, %d failed\n", passed, failed);
    return failed != 0;
}
