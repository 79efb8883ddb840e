#include "circuit.h"

#include <stdlib.h>

const char *kind_word(unsigned kind)
{
    static const char *const words[] = {"input", "gate", "output"};
    return words[kind];
}

struct component *add_component(struct circuit *circuit)
{
    circuit->components = grown(circuit->components, &circuit->room, circuit->count + 1, sizeof *circuit->components);
    struct component *new = &circuit->components[circuit->count++];
    *new = (struct component){0};
    return new;
}

struct wire *add_wire(struct circuit *circuit)
{
    circuit->wires = grown(circuit->wires, &circuit->wire_room, circuit->wire_count + 1, sizeof *circuit->wires);
    struct wire *new = &circuit->wires[circuit->wire_count++];
    *new = (struct wire){0};
    return new;
}

void free_circuit(struct circuit *circuit)
{
    free(circuit->components);
    free(circuit->wires);
    *circuit = (struct circuit){0};
}
