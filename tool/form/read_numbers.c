/* Whole numbers of picoseconds, and what to write in place of those that are something else. */
#include "reader.h"

#include <ctype.h>
#include <inttypes.h>
#include <string.h>

static bool is_digit(char byte)
{
    return byte >= '0' && byte <= '9';
}

static size_t sign_length(struct word word)
{
    return word.length > 0 && word.at[0] == '-' ? 1 : 0;
}

/* Digits with marks between them, as 1,500 and 1_500. */
static bool is_grouped(struct word word)
{
    size_t at = sign_length(word);
    bool digits = at < word.length && is_digit(word.at[at]);
    while (at < word.length && (is_digit(word.at[at]) || memchr(",_'", word.at[at], 3) != NULL)) {
        at++;
    }
    return digits && at == word.length;
}

/* A number with a point: its digits as one whole number, and how many of them stand behind the point. */
struct decimal {
    int64_t digits;
    int behind;
    size_t length; /* of all that was read; 0 if it is no such number, or too long for a hint */
};

static struct decimal read_decimal(struct word word)
{
    struct decimal decimal = {0};
    size_t at = sign_length(word);
    int count = 0;
    bool point = false;
    for (; at < word.length && count <= 11 && (is_digit(word.at[at]) || (word.at[at] == '.' && !point)); at++) {
        if (word.at[at] == '.') {
            point = true;
        } else {
            decimal.digits = decimal.digits * 10 + (word.at[at] - '0');
            decimal.behind += point;
            count++;
        }
    }
    decimal.length = count > 0 && count <= 11 ? at : 0;
    return decimal;
}

/* By how many powers of ten a unit is greater than a picosecond; -1 for what is no unit. */
static int unit_power(struct word word)
{
    static const char units[] = "pnum";
    if (word.length == 1 && tolower((unsigned char)word.at[0]) == 's') {
        return 12;
    }
    if (word.length != 2 || tolower((unsigned char)word.at[1]) != 's') {
        return -1;
    }
    const char *unit = memchr(units, tolower((unsigned char)word.at[0]), sizeof units - 1);
    return unit == NULL ? -1 : 3 * (int)(unit - units);
}

bool is_unit(struct word word)
{
    return unit_power(word) >= 0;
}

/* The unit behind a number: the rest of its word, or the next word if that is one; `ps` if there is none. */
static int power_behind(struct reader *reader, struct word word, size_t length)
{
    if (length < word.length) {
        return unit_power(part_of(word, length, word.length - length));
    }
    struct reader ahead = *reader;
    next_word(&ahead);
    return is_unit(ahead.word) ? unit_power(ahead.word) : 0;
}

/* What `1.5ns` and its like are in picoseconds. */
static void hint_picoseconds(struct reader *reader, struct word word)
{
    struct decimal decimal = read_decimal(word);
    int power = decimal.length == 0 ? -1 : power_behind(reader, word, decimal.length);
    if (power < 0) {
        return;
    }
    for (power -= decimal.behind; power < 0 && decimal.digits % 10 == 0; power++) {
        decimal.digits /= 10;
    }
    if (power < 0) {
        hint(reader->report, "picoseconds are whole: round a delay or an arrival up, a required time down");
    } else if (power <= 6) {
        static const int64_t powers[] = {1, 10, 100, 1000, 10000, 100000, 1000000};
        hint(reader->report, "all numbers are picoseconds, without a unit: write %s%" PRId64,
             sign_length(word) > 0 ? "-" : "", decimal.digits * powers[power]);
    }
}

static void complain_of(struct reader *reader, struct word word)
{
    complain(reader->report, word.place, "`%.*s` is not a whole number of picoseconds", quoted(word), word.at);
    if (word.length > 3 && memcmp(word.at, "\xe2\x88\x92", 3) == 0) {
        hint(reader->report, "a printed minus: the sign of a number is the plain -");
    } else if (is_grouped(word)) {
        hint(reader->report, "nothing stands between the digits of a number");
    } else {
        hint_picoseconds(reader, word);
    }
}

/* The value of a word of digits; from some size on only that it is too great. False if it is another word. */
static bool value_of(struct word word, int64_t *value)
{
    size_t first = sign_length(word);
    *value = 0;
    for (size_t at = first; at < word.length; at++) {
        if (!is_digit(word.at[at])) {
            return false;
        }
        *value = *value > INT64_C(100000000000) ? *value : *value * 10 + (word.at[at] - '0');
    }
    *value = first > 0 ? -*value : *value;
    return word.length > first;
}

bool read_number(struct reader *reader, struct word word, const char *field, int64_t least, int64_t most,
                 int64_t *number)
{
    if (word.length == 0 || is_reserved(word)) {
        complain(reader->report, word.place, "a number has to follow `%s`", field);
    } else if (!value_of(word, number)) {
        complain_of(reader, word);
    } else if (sign_length(word) > 0 && least == 0) {
        complain(reader->report, word.place, "the number behind `%s` cannot be negative", field);
    } else if (*number < least || *number > most) {
        complain(reader->report, word.place, "the number is too great to be written behind `%s`", field);
        hint(reader->report, "%" PRId64 " to %" PRId64 " can be written", least, most);
    } else {
        return true;
    }
    return false;
}
