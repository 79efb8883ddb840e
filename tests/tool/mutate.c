#include "mutate.h"

#include <stdbool.h>
#include <stdlib.h>
#include <string.h>

/* Longer inputs take longer, and show nothing that shorter ones do not. */
enum { LONGEST = 3000 };

struct span {
    size_t start, length;
};

/* What chance would hardly write: words of the form, odd numbers, bytes that text should not have, heads of records. */
static const struct form_word {
    const char *at;
    size_t length;
} form_words[] = {
#define WORD(text) {text, sizeof text - 1}
    WORD("input "), WORD("gate "), WORD("output "), WORD(" at "), WORD(" by "), WORD(" delay "), WORD(" early "),
    WORD(" from "), WORD(" linear "), WORD(" pad "), WORD("+300"), WORD("+0"), WORD("+65535"), WORD("+65536"),
    WORD("+"), WORD("\\\n"), WORD(" \\\r\n"), WORD("\\ "), WORD("\n"), WORD("\r\n"), WORD("\r"), WORD("\t"),
    WORD(" "), WORD("#"), WORD(" # "), WORD("ns"), WORD(" ns "), WORD("ps"), WORD("1.5ns"), WORD("1.0004ns"),
    WORD("2us"), WORD("3s"), WORD("-.5ms"), WORD("."), WORD("1500.0"), WORD("1,500"), WORD("1_0"), WORD("'"),
    WORD("="), WORD("delay=3"), WORD("0"), WORD("-0"), WORD("-1"), WORD("007"), WORD("1e5"), WORD("0x10"),
    WORD("100000000"), WORD("2147483647"), WORD("2147483648"), WORD("-2147483648"), WORD("-2147483649"),
    WORD("4294967295"), WORD("4294967296"), WORD("99999999999"), WORD("-99999999999999999999999999"),
    WORD("000000000000000000000000000000000000001"), WORD("\xe2\x88\x92" "5"), WORD("\xef\xbb\xbf"), WORD("\xff\xfe"),
    WORD("\xfe\xff"), WORD("\xc3\xa9"), WORD("\xc2\x9b"), WORD("\xf0\x9f\x98\x80"), WORD("\xe2\x88"), WORD("\0"),
    WORD("\x1b[31m"), WORD("\x7f"), WORD("\x01"), WORD("_"), WORD("<&>"), WORD("%s%n"), WORD("n0"), WORD("n1"),
    WORD("Input"), WORD("abcdefghijklmnopqrstuvwxyzabcdefghijklmnopqrstuvwxyz0123456789_"),
    WORD("abcdefghijklmnopqrstuvwxyzabcdefghijklmnopqrstuvwxyz0123456789_-"), WORD("\x01\0\x09"), WORD("\x02\0\x04"),
    WORD("\x02\0\x06"), WORD("\x03\0\x06"), WORD("\x10\0\x07"),
#undef WORD
};

/* The steps of splitmix64. */
static uint64_t roll(struct dice *dice)
{
    uint64_t mixed = dice->state += UINT64_C(0x9e3779b97f4a7c15);
    mixed = (mixed ^ (mixed >> 30)) * UINT64_C(0xbf58476d1ce4e5b9);
    mixed = (mixed ^ (mixed >> 27)) * UINT64_C(0x94d049bb133111eb);
    return mixed ^ (mixed >> 31);
}

size_t below(struct dice *dice, size_t end)
{
    return end == 0 ? 0 : (size_t)(roll(dice) % end);
}

void replace(struct bytes *all, size_t at, size_t gone, const uint8_t *new, size_t length)
{
    uint8_t *copy = cleared(length, 1); /* as the new bytes may be some of the old */
    if (length > 0) {
        memcpy(copy, new, length);
    }
    all->at = grown(all->at, &all->room, all->length + length + 1, 1);
    memmove(all->at + at + length, all->at + at + gone, all->length - at - gone);
    memcpy(all->at + at, copy, length);
    all->length = all->length - gone + length;
    free(copy);
}

static struct span any_piece(struct dice *dice, const struct bytes *input)
{
    struct span span = {below(dice, input->length + 1), 0};
    size_t left = input->length - span.start, most = below(dice, 4) == 0 ? left : 8;
    span.length = below(dice, (most < left ? most : left) + 1);
    return span;
}

/* The bytes around a place, up to those on both sides that end a word, or a line; or to a NUL, which does no harm. */
static struct span between(struct dice *dice, const struct bytes *input, const char *ends)
{
    size_t start = below(dice, input->length), end = start;
    while (start > 0 && strchr(ends, input->at[start - 1]) == NULL) {
        start--;
    }
    while (end < input->length && strchr(ends, input->at[end]) == NULL) {
        end++;
    }
    return (struct span){start, end - start};
}

static struct span any_word(struct dice *dice, const struct bytes *input)
{
    return between(dice, input, " \t\r\n");
}

/* With its end, so that what is moved is a line again. */
static struct span any_line(struct dice *dice, const struct bytes *input)
{
    struct span line = between(dice, input, "\n");
    line.length += line.start + line.length < input->length;
    return line;
}

static struct span any_span(struct dice *dice, const struct bytes *input)
{
    static struct span (*const ways[])(struct dice *, const struct bytes *) = {any_piece, any_word, any_word, any_line};
    return ways[below(dice, sizeof ways / sizeof *ways)](dice, input);
}

static void change_byte(struct dice *dice, struct bytes *input)
{
    if (input->length > 0) {
        uint8_t *byte = &input->at[below(dice, input->length)];
        *byte = below(dice, 2) == 0 ? (uint8_t)roll(dice) : (uint8_t)(*byte ^ 1u << below(dice, 8));
    }
}

/* A span again at another place, before something or instead of it. */
static void copy_span(struct dice *dice, struct bytes *input, const struct bytes *from)
{
    struct span source = any_span(dice, from), target = any_span(dice, input);
    size_t gone = below(dice, 2) == 0 ? target.length : 0;
    if (source.length > 0) {
        replace(input, target.start, gone, from->at + source.start, source.length);
    }
}

static void move_span(struct dice *dice, struct bytes *input)
{
    struct span source = any_span(dice, input);
    struct bytes moved = {0};
    replace(&moved, 0, 0, input->at + source.start, source.length);
    replace(input, source.start, source.length, moved.at, 0);
    replace(input, any_span(dice, input).start, 0, moved.at, moved.length);
    free(moved.at);
}

static void put_form_word(struct dice *dice, struct bytes *input)
{
    const struct form_word *word = &form_words[below(dice, sizeof form_words / sizeof *form_words)];
    struct span target = any_span(dice, input);
    size_t way = below(dice, 3); /* before the span, instead of it, behind it */
    size_t at = way == 2 ? target.start + target.length : target.start, gone = way == 1 ? target.length : 0;
    replace(input, at, gone, (const uint8_t *)word->at, word->length);
}

static bool stands_at(const struct bytes *input, size_t at, const struct bytes *word)
{
    size_t end = at + word->length;
    bool begins = at == 0 || strchr(" \t\r\n", input->at[at - 1]) != NULL;
    bool ends = end == input->length || (end < input->length && strchr(" \t\r\n+", input->at[end]) != NULL);
    return begins && ends && memcmp(input->at + at, word->at, word->length) == 0;
}

/* A word changed wherever it stands, so that a text may stay sound although a name is an odd one now. */
static void rename_word(struct dice *dice, struct bytes *input)
{
    struct span span = any_word(dice, input);
    struct bytes old = {0}, new = {0};
    replace(&old, 0, 0, input->at + span.start, span.length);
    replace(&new, 0, 0, input->at + span.start, span.length);
    change_byte(dice, &new);
    if (below(dice, 2) == 0) {
        put_form_word(dice, &new);
    }
    for (size_t at = 0; old.length > 0 && at < input->length && input->length < LONGEST; at++) {
        if (stands_at(input, at, &old)) {
            replace(input, at, old.length, new.at, new.length);
            at += new.length;
        }
    }
    free(old.at);
    free(new.at);
}

static void change_once(struct dice *dice, const struct pool *pool, struct bytes *input)
{
    struct span span = any_span(dice, input);
    switch (below(dice, 8)) {
    case 0:
        change_byte(dice, input);
        break;
    case 1:
        replace(input, span.start, span.length, input->at, 0);
        break;
    case 2:
        copy_span(dice, input, input);
        break;
    case 3:
        copy_span(dice, input, &pool->inputs[below(dice, pool->count)]);
        break;
    case 4:
        move_span(dice, input);
        break;
    case 5:
        rename_word(dice, input);
        break;
    default:
        put_form_word(dice, input);
    }
}

void mutate(struct dice *dice, const struct pool *pool, struct bytes *input)
{
    do {
        change_once(dice, pool, input);
    } while (below(dice, 2) == 0);
    input->length = input->length > LONGEST ? LONGEST : input->length;
}
