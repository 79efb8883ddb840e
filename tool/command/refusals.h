/* The library's refusals in words. */
#ifndef REFUSALS_H
#define REFUSALS_H

#include "circuit.h"

/* What a call was asked, as far as it was a netlist and a result. */
struct asked {
    const struct circuit *circuit;
    const uint8_t *netlist, *result;
    size_t length, result_length;
    const int32_t *slacks; /* known where LATE is given */
    bool from_text;        /* then the circuit has names and places of a text */
};

void explain(struct report *report, const struct asked *asked, uint64_t answer);

#endif
