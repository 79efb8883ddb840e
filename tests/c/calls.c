/*
 * Makes the three calls from C on a small circuit, and prints the answers and the numbers.
 *
 * The circuit: inputs 0 (arrival 0) and 1 (arrival 5), inner 2 (delay 3), output 3 (delay 2,
 * required 20); wires 0 to 2, 1 to 3, 2 to 3.
 */

#include <inttypes.h>
#include <stddef.h>
#include <stdint.h>
#include <stdio.h>
#include <string.h>

#include "hozbantir.h"

enum { COMPONENTS = 4, NON_INPUTS = 2 };

static const uint8_t netlist[] = {
    HOZBANTIR_TAG_COMPONENT, 0, 9, HOZBANTIR_KIND_INPUT, 0, 0, 0, 0, 0, 0, 0, 0,
    HOZBANTIR_TAG_COMPONENT, 0, 9, HOZBANTIR_KIND_INPUT, 0, 0, 0, 0, 0, 0, 0, 5,
    HOZBANTIR_TAG_COMPONENT, 0, 9, HOZBANTIR_KIND_INNER, 0, 0, 0, 3, 0, 0, 0, 0,
    HOZBANTIR_TAG_COMPONENT, 0, 9, HOZBANTIR_KIND_OUTPUT, 0, 0, 0, 2, 0, 0, 0, 20,
    HOZBANTIR_TAG_CONNECTION, 0, 4, 0, 0, 0, 2,
    HOZBANTIR_TAG_CONNECTION, 0, 4, 0, 1, 0, 3,
    HOZBANTIR_TAG_CONNECTION, 0, 4, 0, 2, 0, 3,
};

_Static_assert(sizeof netlist == 69, "seven records");
_Static_assert(HOZBANTIR_RESULT_LENGTH(NON_INPUTS) == 36, "a summary and two bounds");
_Static_assert(HOZBANTIR_MOST_RESULT_LENGTH == 13309, "a summary and 1,023 bounds");
_Static_assert(HOZBANTIR_MOST_NUMBERS_LENGTH == 4096, "1,024 numbers");

static uint8_t slacks[HOZBANTIR_NUMBERS_LENGTH(COMPONENTS)];
static uint8_t result[HOZBANTIR_RESULT_LENGTH(NON_INPUTS)];
static uint8_t bounds[HOZBANTIR_NUMBERS_LENGTH(COMPONENTS)];

static void print_answer(const char *call, uint64_t answer)
{
    uint32_t number = HOZBANTIR_NUMBER(answer);
    printf("%s: number %" PRIu32 " (%s), place %" PRIu32 "\n", call, number,
           hozbantir_refusal_name(number), HOZBANTIR_PLACE(answer));
}

static void analyse(void)
{
    uint64_t answer = hozbantir_analyse(netlist, sizeof netlist, slacks, sizeof slacks);
    print_answer("analyse", answer);
    for (uint32_t at = 0; at < HOZBANTIR_PLACE(answer); at++) {
        printf("  slack of %" PRIu32 " is %" PRId32 "\n", at, hozbantir_signed_at(slacks, at));
    }
}

static void read_back(void)
{
    uint64_t answer = hozbantir_read_back(netlist, sizeof netlist, result, sizeof result, bounds,
                                          sizeof bounds);
    print_answer("read back", answer);
    for (uint32_t at = 0; at < HOZBANTIR_PLACE(answer); at++) {
        printf("  bound of %" PRIu32 " is %" PRIu32 "\n", at, hozbantir_number_at(bounds, at));
    }
}

static void budget(uint32_t mode)
{
    uint64_t answer = hozbantir_budget(mode, netlist, sizeof netlist, result, sizeof result);
    print_answer(mode == HOZBANTIR_EVEN ? "budget, even" : "budget, plain", answer);
    printf(" ");
    for (uint32_t at = 0; at < HOZBANTIR_PLACE(answer); at++) {
        printf(" %u", (unsigned)result[at]);
    }
    printf("\n");
}

/* A refusal leaves the buffer as it was. */
static void refusals(void)
{
    uint8_t kept[sizeof result];
    memcpy(kept, result, sizeof kept);
    print_answer("mode 2", hozbantir_budget(2, netlist, sizeof netlist, result, sizeof result));
    print_answer("one byte short of room",
                 hozbantir_budget(HOZBANTIR_PLAIN, netlist, sizeof netlist, result,
                                  sizeof result - 1));
    print_answer("netlist cut",
                 hozbantir_budget(HOZBANTIR_PLAIN, netlist, sizeof netlist - 1, result,
                                  sizeof result));
    print_answer("no netlist", hozbantir_analyse(NULL, 0, NULL, 0));
    print_answer("no room for slacks", hozbantir_analyse(netlist, sizeof netlist, NULL, 0));
    print_answer("no result",
                 hozbantir_read_back(netlist, sizeof netlist, NULL, 0, bounds, sizeof bounds));
    printf("result kept: %s\n", memcmp(kept, result, sizeof kept) == 0 ? "yes" : "no");
}

int main(void)
{
    analyse();
    budget(HOZBANTIR_PLAIN);
    read_back();
    budget(HOZBANTIR_EVEN);
    read_back();
    refusals();
    return 0;
}
