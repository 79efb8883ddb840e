/*
 * A command at work: the files, the circuit, and what the library said of them. All calls of the
 * library are made in job.c.
 */
#ifndef JOB_H
#define JOB_H

#include "circuit.h"
#include "hozbantir.h"
#include "options.h"

struct job {
    struct options options;
    struct report report;
    struct bytes file, netlist, result, out;
    struct circuit circuit;
    bool from_text;
    int32_t slacks[HOZBANTIR_MOST_COMPONENTS];
    uint32_t increments[HOZBANTIR_MOST_COMPONENTS], bounds[HOZBANTIR_MOST_COMPONENTS];
};

/* Reads the circuit and, unless it is not to be judged, takes its slacks from the library. */
enum status load(struct job *job);

/* The result of a budget in a mode. */
enum status make_result(struct job *job, uint32_t mode);

/* The result that the second file is. */
enum status read_result(struct job *job);

/* Increments and bounds of the result, read back. */
enum status read_bounds(struct job *job);

void free_job(struct job *job);

#endif
