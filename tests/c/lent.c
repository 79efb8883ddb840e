#include "lent.h"

#include <stdio.h>
#include <stdlib.h>
#include <string.h>

/* Wide enough to notice a whole record or a row of numbers written beside the slice. */
enum { GUARD = 64 };

/* The library asks for no alignment, so slices begin at all places of so many bytes in turn. */
enum { PLACES = 16 };

/* No two neighbours are equal, and no short run of them looks like a number of the formats. */
static uint8_t pattern(size_t at)
{
    return (uint8_t)(at * 37) ^ 0xa5;
}

uint8_t *memory_for(size_t length)
{
    uint8_t *memory = malloc(length + 1);
    if (memory == NULL) {
        fprintf(stderr, "bridge: no memory\n");
        exit(EXIT_FAILURE);
    }
    return memory;
}

struct lent lend(uint8_t *contents, size_t length)
{
    static size_t turn;
    uint8_t *memory = memory_for(PLACES + GUARD + length + GUARD);
    struct lent lent = { memory + turn++ % PLACES + GUARD, length, memory, contents };
    for (size_t at = 0; at < GUARD; at++) {
        lent.start[(ptrdiff_t)at - GUARD] = pattern(at);
        lent.start[length + at] = pattern(GUARD + at);
    }
    restore(&lent);
    return lent;
}

void restore(struct lent *lent)
{
    memcpy(lent->start, lent->original, lent->length);
}

bool guards_kept(const struct lent *lent)
{
    for (size_t at = 0; at < GUARD; at++) {
        if (lent->start[(ptrdiff_t)at - GUARD] != pattern(at)
            || lent->start[lent->length + at] != pattern(GUARD + at)) {
            return false;
        }
    }
    return true;
}

bool contents_kept(const struct lent *lent)
{
    return memcmp(lent->start, lent->original, lent->length) == 0;
}

void give_back(struct lent *lent)
{
    free(lent->memory);
    free(lent->original);
}
