/*
 * Tries what the header itself does: numbers out of bytes, and names of refusals. Needs no library,
 * and is C99, C11 and C++ alike. Ends with 1 and says why if something is wrong.
 */

#include <stddef.h>
#include <stdint.h>
#include <stdio.h>
#include <string.h>

#include "hozbantir.h"

static int wrong = 0;

static void expect(int holds, const char *what, unsigned long at)
{
    if (!holds) {
        fprintf(stderr, "header: %s at %lu is wrong\n", what, at);
        wrong = 1;
    }
}

static const uint8_t numbers[] = {
    0x00, 0x00, 0x00, 0x00,
    0x00, 0x00, 0x00, 0x01,
    0xff, 0xff, 0xff, 0xff,
    0x7f, 0xff, 0xff, 0xff,
    0x80, 0x00, 0x00, 0x00,
    0x80, 0x00, 0x00, 0x01,
    0x12, 0x34, 0x56, 0x78,
    0xfe, 0xdc, 0xba, 0x98,
};

static const uint32_t as_unsigned[] = {
    0, 1, 4294967295u, 2147483647u, 2147483648u, 2147483649u, 305419896u, 4275878552u,
};

static const int32_t as_signed[] = {
    0, 1, -1, 2147483647, -2147483647 - 1, -2147483647, 305419896, -19088744,
};

/* Each number at its place, and each again as place 0 of the bytes that start with it. */
static void try_numbers(void)
{
    size_t at;
    for (at = 0; at < sizeof numbers / 4; at++) {
        unsigned long place = (unsigned long)at;
        const uint8_t *rest = numbers + 4 * at;
        expect(hozbantir_number_at(numbers, at) == as_unsigned[at], "the number", place);
        expect(hozbantir_signed_at(numbers, at) == as_signed[at], "the signed number", place);
        expect(hozbantir_number_at(rest, 0) == as_unsigned[at], "the number of the rest", place);
        expect(hozbantir_signed_at(rest, 0) == as_signed[at], "the signed number of the rest", place);
    }
    /* No alignment is asked for: from the fourth byte on, 0x00000000 and 0x01ffffff follow. */
    expect(hozbantir_number_at(numbers + 3, 0) == 0, "the number of the fourth byte on", 0);
    expect(hozbantir_number_at(numbers + 3, 1) == 33554431u, "the number of the fourth byte on", 1);
}

static void try_name(uint32_t number, const char *name)
{
    const char *given = hozbantir_refusal_name(number);
    expect(given != NULL && strcmp(given, name) == 0, "the name", (unsigned long)number);
}

static void try_names(void)
{
    static const char *const names[] = {
        "success", "MODE", "BROKEN", "TAG", "SIZE", "FIELD", "WIRING", "ENDS", "LATE", "unknown",
        "ROOM", "RESULT", "unknown",
    };
    uint32_t number;
    for (number = 0; number <= 12; number++) {
        try_name(number, names[number]);
    }
    try_name(256, "unknown");
    try_name(4294967295u, "unknown");
}

int main(void)
{
    try_numbers();
    try_names();
    return wrong;
}
