/* What a piece of work takes: time, or stack. */

#ifndef MEASURE_H
#define MEASURE_H

#include <stdint.h>

typedef void (*work)(void *given);

uint64_t nanoseconds_of(work run, void *given);

/* Bytes of stack below the caller's frame, down to the lowest byte written. */
uint64_t stack_of(work run, void *given);

#endif
