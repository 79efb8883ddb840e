#include "bytes.h"

#include <stdarg.h>
#include <stdio.h>
#include <stdlib.h>

static void *or_end(void *memory)
{
    if (memory == NULL) {
        fputs("hozbantir: out of memory\n", stderr);
        exit(2);
    }
    return memory;
}

void *grown(void *old, size_t *room, size_t wanted, size_t size)
{
    if (wanted <= *room) {
        return old;
    }
    size_t next = *room < 64 ? 64 : *room;
    while (next < wanted) {
        next *= 2;
    }
    void *new = or_end(realloc(old, next * size));
    *room = next;
    return new;
}

void *cleared(size_t count, size_t size)
{
    return or_end(calloc(count + 1, size));
}

void put_number(struct bytes *out, uint32_t number, unsigned size)
{
    out->at = grown(out->at, &out->room, out->length + size, 1);
    while (size-- > 0) {
        out->at[out->length++] = (uint8_t)(number >> (8 * size));
    }
}

void put(struct bytes *out, const char *format, ...)
{
    va_list words, again;
    va_start(words, format);
    va_copy(again, words);
    int length = vsnprintf(NULL, 0, format, words);
    out->at = grown(out->at, &out->room, out->length + (size_t)length + 1, 1);
    vsnprintf((char *)out->at + out->length, (size_t)length + 1, format, again);
    out->length += (size_t)length;
    va_end(again);
    va_end(words);
}
