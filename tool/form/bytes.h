/* Bytes that grow, and memory that is there or ends the program. */
#ifndef BYTES_H
#define BYTES_H

#include <stddef.h>
#include <stdint.h>

#if defined(__GNUC__)
#define LIKE_PRINTF(format, first) __attribute__((__format__(__printf__, format, first)))
#else
#define LIKE_PRINTF(format, first)
#endif

struct bytes {
    uint8_t *at;
    size_t length, room;
};

/* Memory for `wanted` elements of a size: the old, if they fit into it, or more. */
void *grown(void *old, size_t *room, size_t wanted, size_t size);

/* Memory for `count` elements, all zero; never NULL. */
void *cleared(size_t count, size_t size);

/* Adds a big-endian number of so many bytes. */
void put_number(struct bytes *out, uint32_t number, unsigned size);

/* Adds words. */
void put(struct bytes *out, const char *format, ...) LIKE_PRINTF(2, 3);

#endif
