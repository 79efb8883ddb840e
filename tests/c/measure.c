#define _POSIX_C_SOURCE 200809L

#include "measure.h"

#include <stddef.h>
#include <time.h>

/* Half of what a program usually has. */
enum { PAINTED = 4 << 20 };

/* Stack probes write zeros and frames hold small numbers, so paint is neither. */
enum { PAINT = 0xa7 };

static uint64_t now(void)
{
    struct timespec time;
    clock_gettime(CLOCK_MONOTONIC, &time);
    return (uint64_t)time.tv_sec * UINT64_C(1000000000) + (uint64_t)time.tv_nsec;
}

uint64_t nanoseconds_of(work run, void *given)
{
    uint64_t start = now();
    run(given);
    return now() - start;
}

/* Covers the stack below the caller's frame with paint, and tells where that begins. */
static uintptr_t paint(void)
{
    volatile uint8_t region[PAINTED];
    uintptr_t lowest = (uintptr_t)region;
    for (size_t at = 0; at < PAINTED; at++) {
        region[at] = PAINT;
    }
    return lowest;
}

/* The paint is in nobody's frame by now, so it is read as memory that others may write to. */
static uintptr_t first_without_paint(uintptr_t lowest)
{
    const volatile uint8_t *at = (const volatile uint8_t *)lowest;
    while (*at == PAINT) {
        at++;
    }
    return (uintptr_t)at;
}

/* Called through pointers, so that neither becomes a part of the frame that calls it. */
static uintptr_t (*volatile painter)(void) = paint;
static uintptr_t (*volatile reader)(uintptr_t) = first_without_paint;

uint64_t stack_of(work run, void *given)
{
    volatile uint8_t here = 0;
    uintptr_t frame = (uintptr_t)&here;
    uintptr_t lowest = painter();
    run(given);
    return frame - reader(lowest);
}
