/*
 * A circuit as the tool holds it: what a netlist has, and beside it names and places in the text.
 *
 * Nothing that holds or makes a circuit judges it. Whatever fits into records is written into them
 * as it stands, and the library judges the records.
 */
#ifndef CIRCUIT_H
#define CIRCUIT_H

#include <stdbool.h>
#include <stddef.h>
#include <stdint.h>

#include "report.h"

/* A connection has two bytes for the number of a component. */
enum { MOST_NAME = 63, MOST_NUMBERED = 65536 };

struct component {
    char name[MOST_NAME + 1];
    uint8_t kind; /* as the header numbers them; a text says `gate` for an inner component */
    bool has_early;
    uint32_t delay;
    int32_t time, early;
    struct place at, delay_at, time_at, early_at;
};

/* A connection. */
struct wire {
    uint32_t from, to;
    uint32_t pin; /* the pin's delay, if one is given */
    bool has_pin;
    struct place at;
};

struct circuit {
    struct component *components;
    struct wire *wires;
    size_t count, room, wire_count, wire_room;
};

/* `input`, `gate` or `output`. */
const char *kind_word(unsigned kind);

struct component *add_component(struct circuit *circuit);
struct wire *add_wire(struct circuit *circuit);
void free_circuit(struct circuit *circuit);

#endif
