/* The text as lines of words. */
#include "reader.h"

#include <string.h>

static bool is_blank(char byte)
{
    return byte == ' ' || byte == '\t' || byte == '\r';
}

static const char *skip_blanks(const char *at, const char *end)
{
    while (at < end && is_blank(*at)) {
        at++;
    }
    return at;
}

static void pass_newline(struct reader *reader, const char *newline)
{
    reader->at = reader->line_start = newline + 1;
    reader->line++;
}

/* A backslash with nothing behind it but the end of the line carries the line on. */
static bool carry_on(struct reader *reader)
{
    if (reader->at == reader->end || *reader->at != '\\') {
        return false;
    }
    const char *after = skip_blanks(reader->at + 1, reader->end);
    if (after == reader->end || *after != '\n') {
        return false;
    }
    pass_newline(reader, after);
    return true;
}

bool next_word(struct reader *reader)
{
    do {
        reader->at = skip_blanks(reader->at, reader->end);
    } while (carry_on(reader));
    const char *start = reader->at;
    bool comment = start < reader->end && *start == '#';
    while (reader->at < reader->end && *reader->at != '\n' && (comment || !is_blank(*reader->at))) {
        reader->at++;
    }
    size_t length = comment ? 0 : (size_t)(reader->at - start);
    struct place place = {.where = IN_TEXT, .line = reader->line, .column = (uint32_t)(start - reader->line_start) + 1};
    reader->word = part_of((struct word){.at = start, .place = place}, 0, length);
    return length > 0;
}

bool next_line(struct reader *reader)
{
    while (next_word(reader)) {
    }
    if (reader->at == reader->end) {
        return false;
    }
    pass_newline(reader, reader->at);
    return true;
}

bool is_word(struct word word, const char *text)
{
    return word.length == strlen(text) && memcmp(word.at, text, word.length) == 0;
}

bool is_reserved(struct word word)
{
    static const char *const words[] = {"input", "gate",  "output", "at",     "by",
                                        "delay", "early", "from",   "linear", "pad"};
    for (size_t at = 0; at < sizeof words / sizeof *words; at++) {
        if (is_word(word, words[at])) {
            return true;
        }
    }
    return false;
}

struct word part_of(struct word word, size_t start, size_t length)
{
    word.at += start;
    word.length = length;
    word.place.column += (uint32_t)start;
    word.place.width = (uint32_t)(length < 200 ? length : 200);
    return word;
}

int quoted(struct word word)
{
    return word.length > 64 ? 64 : (int)word.length;
}
