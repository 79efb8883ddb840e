#include "groups.h"

#include <stdlib.h>
#include <string.h>

#include "bytes.h"

static uint32_t number_of(const void *things, size_t place)
{
    uint32_t number;
    memcpy(&number, (const char *)things + place, sizeof number);
    return number;
}

struct groups grouped(const void *things, size_t count, size_t size, size_t offset, size_t group_count)
{
    struct groups new = {cleared(group_count + 2, sizeof *new.start), cleared(count, sizeof *new.at)};
    for (size_t at = 0; at < count; at++) {
        new.start[number_of(things, at * size + offset) + 2]++;
    }
    for (size_t group = 1; group <= group_count; group++) {
        new.start[group + 1] += new.start[group];
    }
    /* so far each start stands one place late; filling a group moves it on to where the next one starts */
    for (size_t at = 0; at < count; at++) {
        new.at[new.start[number_of(things, at * size + offset) + 1]++] = (uint32_t)at;
    }
    return new;
}

size_t group_size(const struct groups *groups, size_t group)
{
    return groups->start[group + 1] - groups->start[group];
}

void free_groups(struct groups *groups)
{
    free(groups->start);
    free(groups->at);
}
