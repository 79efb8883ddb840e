/* A slice to lend to a call, in memory of its own with guard bytes before and after it. */

#ifndef LENT_H
#define LENT_H

#include <stdbool.h>
#include <stddef.h>
#include <stdint.h>

struct lent {
    uint8_t *start;
    size_t length;
    uint8_t *memory;
    uint8_t *original;
};

/* Takes over the contents, which tell later whether the slice was changed. */
struct lent lend(uint8_t *contents, size_t length);

/* Puts the contents back as they were given. */
void restore(struct lent *lent);

bool guards_kept(const struct lent *lent);
bool contents_kept(const struct lent *lent);

void give_back(struct lent *lent);

/* Memory, even for 0 bytes; without it the program ends. */
uint8_t *memory_for(size_t length);

#endif
