/* The worst-served first. */
#ifndef WORST_H
#define WORST_H

#include <stddef.h>
#include <stdint.h>

/* Numbers of components by rising slack, the lower number first among equals. The caller frees them. */
uint32_t *worst_first(const int32_t *slacks, size_t count);

#endif
