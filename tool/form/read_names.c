/* Names: what one looks like, and which component each source of the text is. */
#include "reader.h"

#include <ctype.h>
#include <stdlib.h>
#include <string.h>

static bool can_stand_in_a_name(char byte)
{
    static const char signs[] = "_-./~!*#$@%&|^?[]<>";
    return isalnum((unsigned char)byte) || memchr(signs, byte, sizeof signs - 1) != NULL;
}

/* The first byte of a word that no name may have; its length if there is none. */
static size_t first_stray(struct word word)
{
    size_t at = 0;
    while (at < word.length && can_stand_in_a_name(word.at[at])) {
        at++;
    }
    return at;
}

static bool has_letter(struct word word)
{
    size_t at = 0;
    while (at < word.length && !isalpha((unsigned char)word.at[at]) && word.at[at] != '_') {
        at++;
    }
    return at < word.length;
}

static void complain_of_stray(struct reader *reader, struct word stray)
{
    unsigned char byte = (unsigned char)stray.at[0];
    if (byte < 32 || byte > 126) {
        complain(reader->report, stray.place, "byte 0x%02x cannot stand in a name: names are ASCII", byte);
        return;
    }
    complain(reader->report, stray.place, "`%c` cannot stand in a name", byte);
    if (byte == ',') {
        hint(reader->report, "between names stand blanks and nothing else");
    } else if (byte == '+') {
        hint(reader->report, "a pin's delay touches the name before it, as in `b+300`");
    }
}

bool check_name(struct reader *reader, struct word word)
{
    size_t stray = first_stray(word);
    if (stray < word.length) {
        complain_of_stray(reader, part_of(word, stray, 1));
    } else if (word.length > MOST_NAME) {
        complain(reader->report, word.place, "a name has at most %d characters, and this one %zu", MOST_NAME,
                 word.length);
    } else if (is_reserved(word)) {
        complain(reader->report, word.place, "`%.*s` is a word of the form and cannot be a name", quoted(word),
                 word.at);
    } else if (!has_letter(word) || word.at[0] == '-') {
        complain(reader->report, word.place, "`%.*s` is no name: a name has a letter in it and does not start with -",
                 quoted(word), word.at);
    } else {
        return true;
    }
    return false;
}

static int name_order(const void *left, const void *right)
{
    const struct component *const *one = left, *const *other = right;
    int order = strcmp((*one)->name, (*other)->name);
    return order != 0 ? order : (*one > *other) - (*one < *other); /* they stand in one array */
}

/* Of those of a name the one with the lowest number; NULL if there is none. */
static const struct component *find_name(const struct component **sorted, size_t count, const char *name)
{
    size_t low = 0, high = count;
    while (low < high) {
        size_t middle = low + (high - low) / 2;
        if (strcmp(sorted[middle]->name, name) < 0) {
            low = middle + 1;
        } else {
            high = middle;
        }
    }
    return low < count && strcmp(sorted[low]->name, name) == 0 ? sorted[low] : NULL;
}

static void complain_of_same_names(struct reader *reader, const struct component **sorted)
{
    const struct circuit *circuit = reader->circuit;
    for (size_t at = 0; at < circuit->count; at++) {
        const struct component *component = &circuit->components[at];
        const struct component *first = find_name(sorted, circuit->count, component->name);
        if (first != component) {
            complain(reader->report, component->at, "line %u has a component called `%s` already",
                     (unsigned)first->at.line, component->name);
        }
    }
}

/* Whether two names differ by case alone, or by one character that is changed, left out or put in. */
static bool are_alike(const char *one, const char *other)
{
    size_t length = strlen(one), size = strlen(other), head = 0, tail = 0;
    size_t shorter = length < size ? length : size, longer = length < size ? size : length;
    while (head < shorter && tolower((unsigned char)one[head]) == tolower((unsigned char)other[head])) {
        head++;
    }
    while (tail < shorter - head && one[length - 1 - tail] == other[size - 1 - tail]) {
        tail++;
    }
    size_t differ = longer - head - tail;
    return differ == 0 || (differ == 1 && (longer > 2 || longer > shorter));
}

static void complain_of_unknown(struct reader *reader, struct place place, const char *name)
{
    complain(reader->report, place, "no component is called `%s`", name);
    const struct circuit *circuit = reader->circuit;
    size_t at = 0;
    while (at < circuit->count && !are_alike(circuit->components[at].name, name)) {
        at++;
    }
    if (at < circuit->count) {
        const struct component *like = &circuit->components[at];
        hint(reader->report, "line %u has `%s`", (unsigned)like->at.line, like->name);
    }
}

static void look_up(struct reader *reader, const struct component **sorted)
{
    struct circuit *circuit = reader->circuit;
    for (size_t at = 0; at < circuit->wire_count; at++) {
        char name[MOST_NAME + 1] = {0};
        memcpy(name, reader->sources[at].at, reader->sources[at].length);
        const struct component *source = find_name(sorted, circuit->count, name);
        if (source != NULL) {
            circuit->wires[at].from = (uint32_t)(source - circuit->components);
        } else {
            complain_of_unknown(reader, circuit->wires[at].at, name);
        }
    }
}

void find_sources(struct reader *reader)
{
    size_t count = reader->circuit->count;
    const struct component **sorted = cleared(count, sizeof *sorted);
    for (size_t at = 0; at < count; at++) {
        sorted[at] = &reader->circuit->components[at];
    }
    qsort(sorted, count, sizeof *sorted, name_order);
    complain_of_same_names(reader, sorted);
    look_up(reader, sorted);
    free(sorted);
}
