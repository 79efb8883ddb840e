/* A picture of a circuit, as SVG. */
#ifndef PICTURE_H
#define PICTURE_H

#include "circuit.h"

struct picture {
    const char *title, *below;  /* a head line, and a line of words below it */
    const int32_t *slacks;      /* at base delays, by component */
    const uint32_t *increments; /* by component; NULL: no budget to show */
    const uint32_t *bounds;     /* by component; NULL: no budget to show */
    size_t most;                /* of a greater circuit only the tightest paths, about so many components */
};

/* The circuit must be one that the library has taken. */
void draw(const struct circuit *circuit, const struct picture *picture, struct bytes *out);

#endif
