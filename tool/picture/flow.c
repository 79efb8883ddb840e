/*
 * Slacks are the library's and are taken as they come. Arrivals are worked out here for one purpose
 * only: to tell the eye which wires make up a tightest path. No number of a picture comes from them.
 */
#include "flow.h"

#include <stdlib.h>

#include "hozbantir.h"
#include "worst.h"

static const uint32_t NO_WIRE = UINT32_MAX;

struct tracing {
    const struct circuit *circuit;
    const int32_t *slacks;
    struct flow *flow;
    int64_t *arrivals;
    uint32_t *path; /* the components of the path that was traced last */
    size_t length;
    bool tightest; /* of all: the first one is */
};

/* What a signal needs from the start of a wire to where the component at its end drives the next. */
static int64_t step_of(const struct circuit *circuit, const struct wire *wire)
{
    return (wire->has_pin ? (int64_t)wire->pin : 0) + circuit->components[wire->to].delay;
}

/* A component has its place: those it feeds wait for one less. */
static void release_fan_out(const struct circuit *circuit, struct flow *flow, uint32_t component, uint32_t *waits)
{
    for (size_t at = flow->leaving.start[component]; at < flow->leaving.start[component + 1]; at++) {
        uint32_t to = circuit->wires[flow->leaving.at[at]].to;
        if (--waits[to] == 0) {
            flow->order[flow->ordered++] = to;
        }
    }
}

static void find_order(const struct circuit *circuit, struct flow *flow)
{
    uint32_t *waits = cleared(circuit->count, sizeof *waits);
    for (size_t at = 0; at < circuit->count; at++) {
        waits[at] = (uint32_t)group_size(&flow->entering, at);
        if (waits[at] == 0) {
            flow->order[flow->ordered++] = (uint32_t)at;
        }
    }
    for (size_t next = 0; next < flow->ordered; next++) {
        release_fan_out(circuit, flow, flow->order[next], waits);
    }
    free(waits);
}

static int64_t arrival_of(const struct tracing *tracing, uint32_t number)
{
    const struct component *component = &tracing->circuit->components[number];
    const struct groups *entering = &tracing->flow->entering;
    bool any = component->kind == HOZBANTIR_KIND_INPUT;
    int64_t latest = (any ? component->time : 0) + (int64_t)component->delay;
    for (size_t at = entering->start[number]; at < entering->start[number + 1]; at++) {
        const struct wire *wire = &tracing->circuit->wires[entering->at[at]];
        int64_t arrival = tracing->arrivals[wire->from] + step_of(tracing->circuit, wire);
        latest = !any || arrival > latest ? arrival : latest;
        any = true;
    }
    return latest;
}

/* A wire on a tightest path: back to where the latest signal comes from, or on to where it is needed first. */
static uint32_t next_tight_wire(const struct tracing *tracing, uint32_t component, bool back)
{
    const struct groups *wires = back ? &tracing->flow->entering : &tracing->flow->leaving;
    for (size_t at = wires->start[component]; at < wires->start[component + 1]; at++) {
        const struct wire *wire = &tracing->circuit->wires[wires->at[at]];
        int64_t idle = tracing->arrivals[wire->to] - tracing->arrivals[wire->from] - step_of(tracing->circuit, wire);
        int64_t gained = back ? 0 : (int64_t)tracing->slacks[wire->to] - tracing->slacks[wire->from];
        if (idle + gained == 0) {
            return wires->at[at];
        }
    }
    return NO_WIRE;
}

/* Adds to the path in one direction. No path has more steps than there are components, so loops end, too. */
static void follow(struct tracing *tracing, uint32_t component, bool back)
{
    uint32_t wire = next_tight_wire(tracing, component, back);
    for (size_t steps = 1; steps < tracing->circuit->count && wire != NO_WIRE; steps++) {
        tracing->flow->tight_wire[wire] |= tracing->tightest;
        component = back ? tracing->circuit->wires[wire].from : tracing->circuit->wires[wire].to;
        tracing->path[tracing->length++] = component;
        wire = next_tight_wire(tracing, component, back);
    }
}

/* The path is a tightest one of those through the component; how many of it are not shown yet is returned. */
static size_t trace_through(struct tracing *tracing, uint32_t component)
{
    size_t new = 0;
    tracing->path[0] = component;
    tracing->length = 1;
    follow(tracing, component, true);
    follow(tracing, component, false);
    for (size_t at = 0; at < tracing->length; at++) {
        new += !tracing->flow->shown[tracing->path[at]];
    }
    return new;
}

static void show_path(const struct tracing *tracing)
{
    struct flow *flow = tracing->flow;
    for (size_t at = 0; at < tracing->length; at++) {
        uint32_t component = tracing->path[at];
        flow->shown_count += !flow->shown[component];
        flow->shown[component] = true;
        flow->tight[component] |= tracing->tightest;
    }
}

static void choose(struct tracing *tracing, size_t most)
{
    size_t count = tracing->circuit->count;
    uint32_t *worst = worst_first(tracing->slacks, count);
    for (size_t at = 0; at < count; at++) {
        if (tracing->flow->shown[worst[at]]) {
            continue;
        }
        tracing->tightest = at == 0;
        size_t new = trace_through(tracing, worst[at]);
        if (at > 0 && count > most && tracing->flow->shown_count + new > most) {
            break;
        }
        show_path(tracing);
    }
    free(worst);
}

void find_flow(const struct circuit *circuit, const int32_t *slacks, size_t most, struct flow *flow)
{
    size_t count = circuit->count, wires = circuit->wire_count, size = sizeof *circuit->wires;
    *flow = (struct flow){.leaving = grouped(circuit->wires, wires, size, offsetof(struct wire, from), count),
                          .entering = grouped(circuit->wires, wires, size, offsetof(struct wire, to), count),
                          .order = cleared(count, sizeof *flow->order),
                          .shown = cleared(count, sizeof *flow->shown),
                          .tight = cleared(count, sizeof *flow->tight),
                          .tight_wire = cleared(wires, sizeof *flow->tight_wire)};
    struct tracing tracing = {.circuit = circuit, .slacks = slacks, .flow = flow,
                              .arrivals = cleared(count, sizeof *tracing.arrivals),
                              .path = cleared(2 * count, sizeof *tracing.path)};
    find_order(circuit, flow);
    for (size_t next = 0; next < flow->ordered; next++) {
        tracing.arrivals[flow->order[next]] = arrival_of(&tracing, flow->order[next]);
    }
    choose(&tracing, most);
    free(tracing.arrivals);
    free(tracing.path);
}

void free_flow(struct flow *flow)
{
    free_groups(&flow->leaving);
    free_groups(&flow->entering);
    free(flow->order);
    free(flow->shown);
    free(flow->tight);
    free(flow->tight_wire);
}
