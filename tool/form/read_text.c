/* The text form, line by line: a component, its attributes, what feeds it. */
#include "text.h"

#include <stdlib.h>
#include <string.h>

#include "hozbantir.h"
#include "reader.h"

/* Attributes, as bits of what a line has. */
enum attribute { AT = 1, BY = 2, DELAY = 4, EARLY = 8, FROM = 16, DRIVER = 32 };

static const struct attribute_word {
    const char *word;
    enum attribute attribute;
    int64_t least, most; /* what its field in a record can hold */
    const char *meaning;
} attribute_words[] = {
    {"at", AT, INT32_MIN, INT32_MAX, "`at` is when its signal arrives"},
    {"by", BY, INT32_MIN, INT32_MAX, "`by` is when its signal is needed"},
    {"delay", DELAY, 0, UINT32_MAX, "`delay` is its base delay"},
    {"early", EARLY, INT32_MIN, INT32_MAX, NULL},
    {"from", FROM, 0, 0, NULL},
    {"linear", DRIVER, 0, 0, NULL},
    {"pad", DRIVER, 0, 0, NULL},
};
enum { ATTRIBUTE_WORDS = sizeof attribute_words / sizeof *attribute_words };

/* What each kind needs and cannot have. */
static const struct {
    unsigned needed, forbidden;
} rules[] = {
    [HOZBANTIR_KIND_INPUT] = {AT, BY},
    [HOZBANTIR_KIND_INNER] = {DELAY, AT | BY | EARLY},
    [HOZBANTIR_KIND_OUTPUT] = {DELAY | BY, AT},
};

static const struct attribute_word *find_attribute(struct word word)
{
    for (size_t at = 0; at < ATTRIBUTE_WORDS; at++) {
        if (is_word(word, attribute_words[at].word)) {
            return &attribute_words[at];
        }
    }
    return NULL;
}

static void store(struct component *component, enum attribute attribute, int64_t number, struct place place)
{
    if (attribute == DELAY) {
        component->delay = (uint32_t)number;
        component->delay_at = place;
    } else if (attribute == EARLY) {
        component->early = (int32_t)number;
        component->early_at = place;
        component->has_early = true;
    } else {
        component->time = (int32_t)number;
        component->time_at = place;
    }
}

/* The wire from a source of the line's component: a name, perhaps with `+` and its pin's delay. */
static bool read_source(struct reader *reader)
{
    struct word word = reader->word, name = word;
    const char *plus = memchr(word.at, '+', word.length);
    bool has_pin = plus != NULL && plus > word.at;
    int64_t pin = 0;
    if (has_pin) {
        name = part_of(word, 0, (size_t)(plus - word.at));
        struct word number = part_of(word, name.length + 1, word.length - name.length - 1);
        if (!read_number(reader, number, "+", 0, UINT16_MAX, &pin)) {
            return false;
        }
    }
    if (!check_name(reader, name)) {
        return false;
    }
    struct circuit *circuit = reader->circuit;
    reader->sources = grown(reader->sources, &reader->source_room, circuit->wire_count + 1, sizeof *reader->sources);
    reader->sources[circuit->wire_count] = name;
    *add_wire(circuit) = (struct wire){
        .to = (uint32_t)circuit->count - 1, .pin = (uint32_t)pin, .has_pin = has_pin, .at = name.place};
    return true;
}

static void complain_of_stray(struct reader *reader)
{
    struct word word = reader->word;
    complain(reader->report, word.place, "`%.*s` is not expected here", quoted(word), word.at);
    if (is_unit(word)) {
        hint(reader->report, "all numbers are picoseconds, without a unit");
    } else if (memchr(word.at, '=', word.length) != NULL) {
        hint(reader->report, "a blank stands between a word and its number, as in `delay 3`");
    } else {
        hint(reader->report, "behind the name come `at`, `by`, `delay`, `early` with a number, and `from` with names");
    }
}

/* Whether a name follows `from`. The names themselves are read later, as words that are no attributes. */
static bool is_followed(const struct reader *reader)
{
    struct reader ahead = *reader;
    if (next_word(&ahead) && find_attribute(ahead.word) == NULL) {
        return true;
    }
    complain(reader->report, ahead.word.place, "a name has to follow `from`");
    return false;
}

/* Whether the line's component may have the attribute, and has it not yet. */
static bool is_allowed(struct reader *reader, const struct attribute_word *found, unsigned seen)
{
    const struct component *component = &reader->circuit->components[reader->circuit->count - 1];
    struct place place = reader->word.place;
    if (found->attribute == DRIVER) {
        complain(reader->report, place, "`%s` is kept for drivers, which this version does not know", found->word);
    } else if ((rules[component->kind].forbidden & found->attribute) != 0) {
        complain(reader->report, place,
                 "%s `%s` cannot have `%s`: `at` is for inputs, `by` for outputs, `early` for both",
                 kind_word(component->kind), component->name, found->word);
    } else if ((seen & found->attribute) != 0) {
        complain(reader->report, place, "`%s` stands in this line twice", found->word);
    } else {
        return true;
    }
    return false;
}

/* An attribute and its number, or `from`. */
static bool read_attribute(struct reader *reader, const struct attribute_word *found, unsigned seen)
{
    int64_t number = 0;
    if (!is_allowed(reader, found, seen)) {
        return false;
    }
    if (found->attribute == FROM) {
        return is_followed(reader);
    }
    next_word(reader);
    if (!read_number(reader, reader->word, found->word, found->least, found->most, &number)) {
        return false;
    }
    store(&reader->circuit->components[reader->circuit->count - 1], found->attribute, number, reader->word.place);
    return true;
}

/* Everything behind the name; false if something was complained of. */
static bool read_attributes(struct reader *reader, unsigned *seen)
{
    bool in_sources = false, sound = true;
    while (sound && next_word(reader)) {
        const struct attribute_word *found = find_attribute(reader->word);
        if (found != NULL) {
            sound = read_attribute(reader, found, *seen);
            *seen |= found->attribute;
            in_sources = found->attribute == FROM;
        } else if (in_sources) {
            sound = read_source(reader);
        } else {
            complain_of_stray(reader);
            sound = false;
        }
    }
    return sound;
}

/* Nothing has a default: what is forgotten is a mistake, and not a 0. */
static void check_needed(struct reader *reader, const struct component *component, unsigned seen)
{
    for (size_t at = 0; at < ATTRIBUTE_WORDS; at++) {
        if ((rules[component->kind].needed & ~seen & attribute_words[at].attribute) != 0) {
            complain(reader->report, component->at, "%s `%s` has no `%s`", kind_word(component->kind), component->name,
                     attribute_words[at].word);
            hint(reader->report, "%s, in picoseconds", attribute_words[at].meaning);
        }
    }
}

/* -1 if no line starts with the word. */
static int kind_of(struct word word)
{
    int kind = HOZBANTIR_KIND_OUTPUT;
    while (kind >= 0 && !is_word(word, kind_word((unsigned)kind))) {
        kind--;
    }
    return kind;
}

/* A line; the reader is at its first word. */
static void read_component(struct reader *reader)
{
    struct word first = reader->word;
    int kind = kind_of(first);
    unsigned seen = 0;
    if (kind < 0) {
        complain(reader->report, first.place, "a line starts with `input`, `gate` or `output`, not with `%.*s`",
                 quoted(first), first.at);
    } else if (!next_word(reader)) {
        complain(reader->report, reader->word.place, "a name has to follow `%s`", kind_word((unsigned)kind));
    } else if (reader->circuit->count == MOST_NUMBERED) {
        complain(reader->report, reader->word.place, "more components than can be numbered: %d", MOST_NUMBERED);
    } else if (check_name(reader, reader->word)) {
        struct component *new = add_component(reader->circuit);
        memcpy(new->name, reader->word.at, reader->word.length);
        new->kind = (uint8_t)kind;
        new->at = reader->word.place;
        if (read_attributes(reader, &seen)) {
            check_needed(reader, &reader->circuit->components[reader->circuit->count - 1], seen);
        }
    }
}

/* By (to, from), as a netlist has them. Of two alike the one that comes later in the text comes later. */
static int wire_order(const void *left, const void *right)
{
    const struct wire *one = left, *other = right;
    const uint32_t keys[][2] = {{one->to, other->to},
                                {one->from, other->from},
                                {one->at.line, other->at.line},
                                {one->at.column, other->at.column}};
    size_t at = 0;
    while (at < 3 && keys[at][0] == keys[at][1]) {
        at++;
    }
    return (keys[at][0] > keys[at][1]) - (keys[at][0] < keys[at][1]);
}

bool is_text(const struct bytes *file)
{
    return file->length == 0 || file->at[0] >= 32 || memchr("\t\n\r", file->at[0], 3) != NULL;
}

/* A byte-order mark is passed over. UTF-16, which some editors save, would be nothing but complaints. */
static bool skip_mark(struct report *report)
{
    const char *text = report->text;
    if (report->length >= 2 && (memcmp(text, "\xff\xfe", 2) == 0 || memcmp(text, "\xfe\xff", 2) == 0)) {
        complain(report, (struct place){.where = NOWHERE}, "this is UTF-16: save it as UTF-8");
        return false;
    }
    size_t mark = report->length >= 3 && memcmp(text, "\xef\xbb\xbf", 3) == 0 ? 3 : 0;
    report->text += mark;
    report->length -= mark;
    return true;
}

bool read_text(struct report *report, struct circuit *circuit)
{
    if (!skip_mark(report)) {
        return false;
    }
    struct reader reader = {.report = report, .circuit = circuit, .line = 1, .at = report->text,
                            .line_start = report->text, .end = report->text + report->length};
    do {
        if (next_word(&reader)) {
            read_component(&reader);
        }
    } while (next_line(&reader));
    if (report->complaints == 0) {
        find_sources(&reader);
    }
    if (report->complaints == 0 && circuit->wire_count > 0) {
        qsort(circuit->wires, circuit->wire_count, sizeof *circuit->wires, wire_order);
    }
    free(reader.sources);
    return report->complaints == 0;
}
