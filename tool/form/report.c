#include "report.h"

#include <stdarg.h>
#include <stdlib.h>
#include <string.h>

/* So much of a long line is shown, around the place. */
enum { LONGEST_SHOWN = 140, SHOWN_BEFORE = 60 };

static const char *const plain = "\033[0m", *const bold = "\033[1m";
static const char *const red = "\033[1;31m", *const blue = "\033[1;36m";

static const char *paint(const struct report *report, const char *code)
{
    return report->colour ? code : "";
}

/*
 * How many bytes the character at a place has, or 0 if it must not reach a terminal. A file may
 * hold anything, and a control character, of one byte or of two, would be carried out there.
 */
static size_t character_length(const char *at, size_t left)
{
    unsigned char first = (unsigned char)at[0];
    size_t length = first < 0x80 ? 1 : first < 0xc2 ? 0 : first < 0xe0 ? 2 : first < 0xf0 ? 3 : first < 0xf5 ? 4 : 0;
    if (length > left || first < 32 || first == 127 || (first == 0xc2 && (unsigned char)at[1] < 0xa0)) {
        return 0;
    }
    for (size_t next = 1; next < length; next++) {
        if (((unsigned char)at[next] & 0xc0) != 0x80) {
            return 0;
        }
    }
    return length;
}

/* Shows one character, and says how many bytes it had. */
static size_t show_character(const struct report *report, const char *at, size_t left)
{
    size_t length = *at == '\t' ? 1 : character_length(at, left);
    if (length == 0) {
        fputc('?', report->to);
        return 1;
    }
    fwrite(at, 1, length, report->to);
    return length;
}

/* Where a line of the text begins; its length goes without the end of the line. */
static const char *find_line(const struct report *report, uint32_t number, size_t *length)
{
    const char *line = report->text, *end = report->text + report->length;
    const char *stop = memchr(line, '\n', report->length);
    for (uint32_t at = 1; at < number && stop != NULL; at++) {
        line = stop + 1;
        stop = memchr(line, '\n', (size_t)(end - line));
    }
    *length = (size_t)((stop == NULL ? end : stop) - line);
    *length -= *length > 0 && line[*length - 1] == '\r';
    return line;
}

/* The line with carets below it. A tab is a tab in both, so that the carets stand where they should. */
static void show_line(const struct report *report, struct place place)
{
    size_t length, column = place.column - 1;
    const char *line = find_line(report, place.line, &length);
    size_t start = column > LONGEST_SHOWN - SHOWN_BEFORE ? column - SHOWN_BEFORE : 0;
    size_t end = length > start + LONGEST_SHOWN ? start + LONGEST_SHOWN : length;
    struct bytes gap = {0}, carets = {0};
    int margin = fprintf(report->to, "%5u | %s", (unsigned)place.line, start > 0 ? ".." : "");
    for (size_t at = start; at < end;) {
        struct bytes *below = at < column ? &gap : &carets;
        if (at < column || at < column + place.width) {
            put(below, at >= column ? "^" : line[at] == '\t' ? "\t" : " ");
        }
        at += show_character(report, line + at, end - at);
    }
    if (carets.length == 0) {
        put(&carets, "^");
    }
    put(&gap, "%s", "");
    fprintf(report->to, "%s\n      | %*s%s%s%s%s\n", end < length ? ".." : "", margin - 8, "", (const char *)gap.at,
            paint(report, red), (const char *)carets.at, paint(report, plain));
    free(gap.at);
    free(carets.at);
}

/* The words may quote the file. */
static void show_words(const struct report *report, const char *format, va_list list)
{
    char words[600];
    vsnprintf(words, sizeof words, format, list);
    size_t length = strlen(words);
    for (size_t at = 0; at < length;) {
        at += show_character(report, words + at, length - at);
    }
    fputc('\n', report->to);
}

void complain(struct report *report, struct place place, const char *format, ...)
{
    if (++report->complaints > MOST_COMPLAINTS) {
        return;
    }
    fprintf(report->to, "%s%s:", paint(report, bold), report->file);
    if (place.where == IN_TEXT) {
        fprintf(report->to, "%u:%u:", (unsigned)place.line, (unsigned)place.column);
    } else if (place.where == AT_BYTE) {
        fprintf(report->to, " byte %u:", (unsigned)place.byte);
    }
    fprintf(report->to, "%s %serror:%s ", paint(report, plain), paint(report, red), paint(report, plain));
    va_list words;
    va_start(words, format);
    show_words(report, format, words);
    va_end(words);
    if (place.where == IN_TEXT) {
        show_line(report, place);
    }
}

void hint(struct report *report, const char *format, ...)
{
    if (report->complaints > MOST_COMPLAINTS) {
        return;
    }
    fprintf(report->to, "%shint:%s ", paint(report, blue), paint(report, plain));
    va_list words;
    va_start(words, format);
    show_words(report, format, words);
    va_end(words);
}

void count_the_rest(const struct report *report)
{
    if (report->complaints > MOST_COMPLAINTS) {
        fprintf(report->to, "and %u more\n", report->complaints - MOST_COMPLAINTS);
    }
}
