/* What is tried on one input, and what has to hold whatever the input is. */
#ifndef TRIAL_H
#define TRIAL_H

#include "circuit.h"
#include "mutate.h"

struct trial {
    bool taken, drawn;
    uint32_t kind;        /* the same for inputs that lead to like complaints, or to like circuits */
    struct bytes netlist; /* of a text that was taken */
};

/* Ends the program, which shows the input then, if something does not hold that should. */
void must(bool holds, const char *what);

/* Bytes in memory of exactly their size, so that reading past their end is seen. */
uint8_t *exact_copy(const struct bytes *bytes);

/* Reads bytes as a text. One that is taken has to come back through records and through text, and to be drawn. */
struct trial try_text(struct dice *dice, const struct bytes *input);

/* Reads bytes as a netlist. */
void try_netlist(const struct bytes *input);

/* The records are those of the circuit, and record_at finds each of them and no other. */
void check_records(const struct circuit *circuit, const struct bytes *netlist);

/* What a taken circuit has as places is where the text says so. */
void check_places(const struct circuit *circuit, const struct report *report);

/* Complaints lie within the text, are as many as were counted, and have nothing in them that a terminal would obey. */
void check_complaints(const struct report *report, const char *said);

/* The words of the first complaint, less what they quote and count. */
uint32_t complaint_kind(const char *said);

/* Draws the circuit, if it is one that could be drawn: false if it is not. */
bool try_picture(struct dice *dice, const struct circuit *circuit);

#endif
