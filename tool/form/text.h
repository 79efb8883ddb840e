/* The text form of a circuit, which docs/TEXT.md describes. */
#ifndef TEXT_H
#define TEXT_H

#include "circuit.h"

/* Every netlist starts with a control byte, and no text does: the tags that are blanks in a text are no netlist's. */
bool is_text(const struct bytes *file);

/* The circuit that the report's text says; false if something had to be complained of. */
bool read_text(struct report *report, struct circuit *circuit);

/* The one form that unpack writes. */
void write_text(const struct circuit *circuit, struct bytes *out);

#endif
