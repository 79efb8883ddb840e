#include "tables.h"

#include <inttypes.h>
#include <stdlib.h>
#include <string.h>

#include "records.h"
#include "worst.h"

/* The output with the least slack, which no other component is below; of equals the lowest. */
static size_t worst_output(const struct job *job)
{
    size_t worst = job->circuit.count;
    for (size_t at = 0; at < job->circuit.count; at++) {
        if (job->circuit.components[at].kind == HOZBANTIR_KIND_OUTPUT
            && (worst == job->circuit.count || job->slacks[at] < job->slacks[worst])) {
            worst = at;
        }
    }
    return worst;
}

void say_least_slack(struct job *job)
{
    size_t worst = worst_output(job);
    int32_t slack = job->slacks[worst];
    const char *name = job->circuit.components[worst].name;
    if (slack < 0) {
        put(&job->out, "late by %" PRId32 " ps, at output `%s`\n", -slack, name);
    } else {
        put(&job->out, "in time; least slack %" PRId32 " ps, at output `%s`\n", slack, name);
    }
}

static int name_width(const struct circuit *circuit)
{
    size_t width = strlen("component");
    for (size_t at = 0; at < circuit->count; at++) {
        size_t length = strlen(circuit->components[at].name);
        width = length > width ? length : width;
    }
    return (int)width;
}

static void slack_line(struct job *job, size_t number, int width)
{
    const struct component *component = &job->circuit.components[number];
    const char *kind = kind_word(component->kind);
    if (job->options.tsv) {
        put(&job->out, "%zu\t%s\t%s\t%" PRIu32 "\t%" PRId32 "\n", number, component->name, kind, component->delay,
            job->slacks[number]);
    } else {
        put(&job->out, "%-*s  %-6s  %6" PRIu32 "  %10" PRId32 "\n", width, component->name, kind, component->delay,
            job->slacks[number]);
    }
}

void slack_table(struct job *job)
{
    int width = name_width(&job->circuit);
    size_t count = job->circuit.count, most = job->options.worst;
    uint32_t *worst = most > 0 ? worst_first(job->slacks, count) : NULL;
    count = most > 0 && most < count ? most : count;
    if (job->options.tsv) {
        put(&job->out, "number\tcomponent\tkind\tdelay\tslack\n");
    } else {
        put(&job->out, "%-*s  %-6s  %6s  %10s\n", width, "component", "kind", "delay", "slack");
    }
    for (size_t at = 0; at < count; at++) {
        slack_line(job, worst == NULL ? at : worst[at], width);
    }
    free(worst);
    if (!job->options.tsv) {
        put(&job->out, "\n");
        say_least_slack(job);
    }
}

static void bound_line(struct job *job, uint32_t number, int width)
{
    const struct component *component = &job->circuit.components[number];
    uint32_t increment = job->increments[number], bound = job->bounds[number];
    if (job->options.tsv) {
        put(&job->out, "%" PRIu32 "\t%s\t%" PRIu32 "\t%" PRIu32 "\t%" PRIu32 "\n", number, component->name,
            component->delay, increment, bound);
    } else {
        put(&job->out, "%-*s  %6" PRIu32 "  %10" PRIu32 "  %10" PRIu32 "\n", width, component->name, component->delay,
            increment, bound);
    }
}

void bound_table(struct job *job)
{
    int width = name_width(&job->circuit);
    if (job->options.tsv) {
        put(&job->out, "number\tcomponent\tdelay\tincrement\tbound\n");
    } else {
        put(&job->out, "%-*s  %6s  %10s  %10s\n", width, "component", "delay", "increment", "bound");
    }
    for (size_t at = HOZBANTIR_RESULT_LENGTH(0); at < job->result.length; at += 13) {
        bound_line(job, field(job->result.at + at + 3, 2), width);
    }
    if (!job->options.tsv) {
        put(&job->out, "\n");
        say_summary(job, &job->out);
        put(&job->out, "\n");
    }
}

void say_summary(const struct job *job, struct bytes *out)
{
    const uint8_t *summary = job->result.at + 3;
    uint32_t share = field(summary + 1, 4), rounds = field(summary + 5, 2);
    if (summary[0] == HOZBANTIR_PLAIN) {
        put(out, "plain mode: ");
    } else {
        put(out, "even mode: share %" PRIu32 " ps, ", share);
    }
    put(out, "%" PRIu32 " round%s", rounds, rounds == 1 ? "" : "s");
}
