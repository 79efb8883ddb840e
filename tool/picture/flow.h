/* How signals run through a circuit, and which part of it a picture shows. */
#ifndef FLOW_H
#define FLOW_H

#include "circuit.h"
#include "groups.h"

struct flow {
    struct groups leaving, entering; /* wires, by the component they come from, and by the one they go to */
    uint32_t *order;                 /* components, each behind all that feed it */
    size_t ordered;                  /* all of them, unless there is a loop: what is on it or behind it is left out */
    bool *shown, *tight;             /* by component: is it in the picture, and on the tightest path? */
    bool *tight_wire;                /* by wire: is it on the tightest path? */
    size_t shown_count;
};

/* All components are shown if there are at most `most`, else whole tightest paths, worst first, while they fit. */
void find_flow(const struct circuit *circuit, const int32_t *slacks, size_t most, struct flow *flow);
void free_flow(struct flow *flow);

#endif
