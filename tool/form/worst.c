#include "worst.h"

#include <stdlib.h>

#include "bytes.h"

struct ranked {
    int32_t slack;
    uint32_t number;
};

static int rank_order(const void *left, const void *right)
{
    const struct ranked *one = left, *other = right;
    return one->slack != other->slack ? (one->slack > other->slack) - (one->slack < other->slack)
                                      : (one->number > other->number) - (one->number < other->number);
}

uint32_t *worst_first(const int32_t *slacks, size_t count)
{
    struct ranked *ranked = cleared(count, sizeof *ranked);
    uint32_t *numbers = cleared(count, sizeof *numbers);
    for (size_t at = 0; at < count; at++) {
        ranked[at] = (struct ranked){slacks[at], (uint32_t)at};
    }
    qsort(ranked, count, sizeof *ranked, rank_order);
    for (size_t at = 0; at < count; at++) {
        numbers[at] = ranked[at].number;
    }
    free(ranked);
    return numbers;
}
