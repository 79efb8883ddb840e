/* A circuit as the records of a netlist. */
#ifndef RECORDS_H
#define RECORDS_H

#include "circuit.h"

/* Components as they are numbered, connections as they are sorted, early times last. */
void write_netlist(const struct circuit *circuit, struct bytes *out);

/*
 * What the records say, as far as they are known: component 7 is called n7. Whether that is a
 * circuit the library has to say.
 */
void read_netlist(const uint8_t *netlist, size_t length, struct circuit *circuit);

/* The big-endian number that so many bytes are. */
uint32_t field(const uint8_t *bytes, unsigned size);

enum record { NO_RECORD, COMPONENT_RECORD, CONNECTION_RECORD, EARLY_RECORD };

/*
 * Which record of what write_netlist writes stands at an offset, and the number of the component
 * or the wire that it is for.
 */
enum record record_at(const struct circuit *circuit, size_t offset, size_t *number);

#endif
