/* Changed inputs, made from a pool of others by dice that a seed sets going. */
#ifndef MUTATE_H
#define MUTATE_H

#include <stddef.h>
#include <stdint.h>

#include "bytes.h"

struct dice {
    uint64_t state;
};

struct pool {
    struct bytes *inputs;
    size_t count, room;
};

/* A number from 0 to below `end`; 0 if there is none. */
size_t below(struct dice *dice, size_t end);

/* Puts bytes at a place of others, instead of so many that stand there. */
void replace(struct bytes *all, size_t at, size_t gone, const uint8_t *new, size_t length);

/* Changes bytes a few times, perhaps by pieces of what is in the pool. */
void mutate(struct dice *dice, const struct pool *pool, struct bytes *input);

#endif
