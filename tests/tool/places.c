/* Places, in complaints and in circuits, against the text itself. */
#include <stdlib.h>
#include <string.h>

#include "trial.h"

/* Where a place is in the text; NULL if it is outside. */
static const char *find(const struct report *report, uint32_t line, uint32_t column)
{
    const char *at = report->text, *end = report->text + report->length;
    for (uint32_t passed = 1; passed < line && at != NULL; passed++) {
        at = memchr(at, '\n', (size_t)(end - at));
        at = at == NULL ? NULL : at + 1;
    }
    if (at == NULL || line == 0 || column == 0) {
        return NULL;
    }
    const char *newline = memchr(at, '\n', (size_t)(end - at));
    size_t length = (size_t)((newline == NULL ? end : newline) - at);
    return column - 1 <= length ? at + column - 1 : NULL;
}

static bool says(const struct report *report, struct place place, const char *words)
{
    const char *at = place.where == IN_TEXT ? find(report, place.line, place.column) : NULL;
    size_t length = strlen(words);
    return at != NULL && (size_t)(report->text + report->length - at) >= length && memcmp(at, words, length) == 0;
}

/* A number as the text has it, with zeros in front perhaps. */
static bool says_number(const struct report *report, struct place place, int64_t number)
{
    const char *at = place.where == IN_TEXT ? find(report, place.line, place.column) : NULL;
    char words[200] = "";
    if (at == NULL || place.width >= sizeof words || place.width > (size_t)(report->text + report->length - at)) {
        return at != NULL && place.width >= sizeof words; /* too long to be read here */
    }
    memcpy(words, at, place.width);
    return strtoll(words, NULL, 10) == number;
}

static void check_component(const struct component *component, const struct report *report)
{
    must(says(report, component->at, component->name), "a component's place is its name's");
    must(component->at.width == strlen(component->name), "a component's place is as wide as its name");
    if (component->delay_at.where == IN_TEXT || component->delay != 0) {
        must(says_number(report, component->delay_at, component->delay), "the delay stands at its place");
    }
    if (component->time_at.where == IN_TEXT || component->time != 0) {
        must(says_number(report, component->time_at, component->time), "the time stands at its place");
    }
    if (component->has_early) {
        must(says_number(report, component->early_at, component->early), "the early time stands at its place");
    }
}

static void check_wire(const struct circuit *circuit, const struct wire *wire, const struct report *report)
{
    const char *name = circuit->components[wire->from].name;
    must(says(report, wire->at, name), "the name of a wire's source stands at its place");
    struct place behind = wire->at;
    behind.column += (uint32_t)strlen(name);
    must(says(report, behind, "+") == wire->has_pin, "a pin's delay touches the name");
}

/* Wires rise by (to, from), or a netlist could not have them. */
static void check_order(const struct wire *before, const struct wire *wire)
{
    bool rises = before->to < wire->to || (before->to == wire->to && before->from <= wire->from);
    must(rises, "wires are sorted by where they go and where they come from");
}

void check_places(const struct circuit *circuit, const struct report *report)
{
    for (size_t at = 0; at < circuit->count; at++) {
        check_component(&circuit->components[at], report);
    }
    for (size_t at = 0; at < circuit->wire_count; at++) {
        const struct wire *wire = &circuit->wires[at];
        must(wire->from < circuit->count && wire->to < circuit->count, "wires go between components");
        check_wire(circuit, wire, report);
        check_order(at > 0 ? wire - 1 : wire, wire);
    }
}

/* How many bytes a character has that may go to a terminal; 0 for one that may not. */
static size_t shown_length(const unsigned char *at)
{
    if (at[0] < 0x80) {
        return (at[0] >= 32 && at[0] != 127) || at[0] == '\n' || at[0] == '\t' ? 1 : 0;
    }
    size_t length = at[0] < 0xc2 ? 0 : at[0] < 0xe0 ? 2 : at[0] < 0xf0 ? 3 : at[0] < 0xf5 ? 4 : 0;
    for (size_t next = 1; next < length; next++) {
        if ((at[next] & 0xc0) != 0x80) {
            return 0;
        }
    }
    return at[0] == 0xc2 && at[1] < 0xa0 ? 0 : length;
}

/* One line of what was said; true if a complaint begins with it. */
static bool check_line(const struct report *report, const char *line)
{
    unsigned row = 0, column = 0;
    if (strncmp(line, "fuzz:", 5) != 0) {
        return false;
    }
    if (sscanf(line, "fuzz:%u:%u: error: ", &row, &column) == 2) {
        must(find(report, row, column) != NULL, "a complaint's place is in the text");
    } else {
        must(strncmp(line, "fuzz: error: ", 13) == 0, "a complaint has a place, or none");
    }
    return true;
}

void check_complaints(const struct report *report, const char *said)
{
    unsigned found = 0;
    for (const unsigned char *at = (const unsigned char *)said; *at != '\0'; at += shown_length(at)) {
        must(shown_length(at) > 0, "no byte of a complaint is for a terminal to obey");
    }
    for (const char *line = said; line != NULL && *line != '\0'; line = strchr(line, '\n')) {
        line += *line == '\n';
        found += check_line(report, line);
    }
    must(found == (report->complaints < MOST_COMPLAINTS ? report->complaints : MOST_COMPLAINTS),
         "complaints are shown as they are counted");
}

/* Adds a line's words to a sum, less all from the first quote to the last, and less what could be a digit. */
static uint32_t add_words(uint32_t sum, const char *line)
{
    size_t length = strcspn(line, "\n"), first = strcspn(line, "`\n"), last = length;
    while (last > first && line[last - 1] != '`') {
        last--;
    }
    for (size_t at = 0; at < length; at++) {
        bool counts = (at < first || at >= last) && strchr("0123456789abcdef", line[at]) == NULL;
        sum = counts ? (sum ^ (unsigned char)line[at]) * 16777619u : sum;
    }
    return sum;
}

uint32_t complaint_kind(const char *said)
{
    const char *words = strstr(said, "error: "), *more = strstr(said, "\nhint: ");
    const char *next = words == NULL ? NULL : strstr(words, "\nfuzz:");
    uint32_t kind = words == NULL ? 0 : add_words(2166136261u, words);
    return more == NULL || (next != NULL && next < more) ? kind : add_words(kind, more + 1);
}
