/* What the files that read the text form share: a reader that goes through the text word by word. */
#ifndef READER_H
#define READER_H

#include "circuit.h"

struct word {
    const char *at;
    size_t length; /* 0 at the end of a line */
    struct place place;
};

struct reader {
    struct report *report;
    struct circuit *circuit;
    const char *at, *end, *line_start;
    uint32_t line;
    struct word word;     /* the one read last */
    struct word *sources; /* what feeds, wire by wire, as the text names it */
    size_t source_room;
};

/* The next word of the line; false at its end. */
bool next_word(struct reader *reader);

/* The next line; false at the end of the text. */
bool next_line(struct reader *reader);

bool is_word(struct word word, const char *text);

/* A word of the form, which no name may be. */
bool is_reserved(struct word word);

/* `ps`, `ns` and the like, which the form does not have. */
bool is_unit(struct word word);

/* A part of a word. */
struct word part_of(struct word word, size_t start, size_t length);

/* For "%.*s": no more of a word than a message should quote. */
int quoted(struct word word);

/* A whole number from least to most, which is what its field can hold. False, and complained of, if it is none. */
bool read_number(struct reader *reader, struct word word, const char *field, int64_t least, int64_t most,
                 int64_t *number);

/* False, and complained of, if the word cannot be a name. */
bool check_name(struct reader *reader, struct word word);

/* Finds the component that each wire comes from, once all lines are read. */
void find_sources(struct reader *reader);

#endif
