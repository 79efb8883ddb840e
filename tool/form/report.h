/* Complaints as compilers make them: file, line, column, words, the line itself, a caret below it. */
#ifndef REPORT_H
#define REPORT_H

#include <stdbool.h>
#include <stddef.h>
#include <stdint.h>
#include <stdio.h>

#include "bytes.h"

/* More than so many are counted, and not shown. */
enum { MOST_COMPLAINTS = 10 };

enum where { NOWHERE, IN_TEXT, AT_BYTE };

/* Lines and columns count from 1, bytes of a file of records from 0. */
struct place {
    enum where where;
    uint32_t line, column, width;
    uint32_t byte;
};

struct report {
    const char *file;
    const char *text; /* what lines and columns speak of */
    size_t length;
    unsigned complaints;
    bool colour;
    FILE *to;
};

void complain(struct report *report, struct place place, const char *format, ...) LIKE_PRINTF(3, 4);
void hint(struct report *report, const char *format, ...) LIKE_PRINTF(2, 3);

/* How many complaints were not shown, if some were not. */
void count_the_rest(const struct report *report);

#endif
