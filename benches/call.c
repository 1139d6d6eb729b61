/* Solves the puzzle of a file in .nin, or closes its grid of 10 by 10 unknown cells by lines, or searches for the solutions
 * that extend it, a number of times by the library, and prints the mean wall time of a call in seconds.
 *
 * Usage: call FILE TIMES solve|close|extend */
#define _POSIX_C_SOURCE 199309L
#include "nonograde.h"

#include <stdio.h>
#include <stdlib.h>
#include <string.h>
#include <time.h>

static double now(void) {
    struct timespec time;
    clock_gettime(CLOCK_MONOTONIC, &time);
    return (double)time.tv_sec + (double)time.tv_nsec / 1e9;
}

static uint8_t text[65536], cells[100], buffer[65536];

/* Calls the library as a word says. */
static nonograde_reply answer(const char *what, const char *name, size_t length) {
    if (strcmp(what, "close") == 0) {
        return nonograde_close(text, length, NONOGRADE_NIN, cells, sizeof cells, NONOGRADE_BY_LINES, buffer, sizeof buffer);
    }
    if (strcmp(what, "extend") == 0) {
        return nonograde_extend(text, length, NONOGRADE_NIN, cells, sizeof cells, 1000, NONOGRADE_FIRST, buffer,
                                sizeof buffer);
    }
    return nonograde_solve((const uint8_t *)name, strlen(name), text, length, NONOGRADE_NIN, 1000, NONOGRADE_FIRST, buffer,
                           sizeof buffer);
}

int main(int count, char **words) {
    FILE *file = count == 4 ? fopen(words[1], "rb") : NULL;
    if (!file) {
        fputs("usage: call FILE TIMES solve|close|extend\n", stderr);
        return 2;
    }
    memset(cells, '?', sizeof cells);
    size_t length = fread(text, 1, sizeof text, file);
    fclose(file);
    long times = atol(words[2]);
    double begun = now();
    for (long k = 0; k < times; k++) {
        nonograde_reply reply = answer(words[3], words[1], length);
        if (reply.status != NONOGRADE_OK) {
            fprintf(stderr, "call: %.*s\n", (int)reply.length, (const char *)buffer);
            return 1;
        }
    }
    printf("%.9f\n", (now() - begun) / (double)times);
    return 0;
}
