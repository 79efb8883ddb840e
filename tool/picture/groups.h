/* Things sorted into groups by a number that each of them has. */
#ifndef GROUPS_H
#define GROUPS_H

#include <stddef.h>
#include <stdint.h>

/* Group n is at[start[n]] up to, but without, at[start[n + 1]]; within it things stand as they came. */
struct groups {
    uint32_t *start, *at;
};

/* Of `count` things of a size; each has its number, a uint32_t below `group_count`, at the offset. */
struct groups grouped(const void *things, size_t count, size_t size, size_t offset, size_t group_count);
size_t group_size(const struct groups *groups, size_t group);
void free_groups(struct groups *groups);

#endif
