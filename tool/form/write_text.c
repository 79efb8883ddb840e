/* The canonical form: columns, one order of attributes, sources by number. */
#include "text.h"

#include <inttypes.h>
#include <string.h>

#include "hozbantir.h"

/* Names above some length do not move the column of all; lines are broken behind some width. */
enum { WIDEST_NAME = 20, WIDEST_LINE = 100 };

static int name_width(const struct circuit *circuit)
{
    int width = 1;
    for (size_t at = 0; at < circuit->count; at++) {
        int length = (int)strlen(circuit->components[at].name);
        width = length > width && length <= WIDEST_NAME ? length : width;
    }
    return width;
}

static void write_attributes(const struct component *component, struct bytes *out)
{
    if (component->kind == HOZBANTIR_KIND_INPUT) {
        put(out, "  at %" PRId32, component->time);
    }
    if (component->kind != HOZBANTIR_KIND_INPUT || component->delay != 0) {
        put(out, "  delay %" PRIu32, component->delay);
    }
    if (component->kind == HOZBANTIR_KIND_OUTPUT) {
        put(out, "  by %" PRId32, component->time);
    }
    if (component->has_early) {
        put(out, "  early %" PRId32, component->early);
    }
}

static void write_source(const struct circuit *circuit, const struct wire *wire, struct bytes *out)
{
    put(out, " %s", circuit->components[wire->from].name);
    if (wire->has_pin) {
        put(out, "+%" PRIu32, wire->pin);
    }
}

/* The wires of a component stand together; says where those of the next begin. */
static size_t write_sources(const struct circuit *circuit, size_t number, size_t wire, size_t start, struct bytes *out)
{
    if (wire < circuit->wire_count && circuit->wires[wire].to == number) {
        put(out, "  from");
    }
    for (; wire < circuit->wire_count && circuit->wires[wire].to == number; wire++) {
        if (out->length - start > WIDEST_LINE) {
            put(out, " \\\n       ");
            start = out->length;
        }
        write_source(circuit, &circuit->wires[wire], out);
    }
    return wire;
}

void write_text(const struct circuit *circuit, struct bytes *out)
{
    int width = name_width(circuit);
    size_t wire = 0;
    for (size_t at = 0; at < circuit->count; at++) {
        const struct component *component = &circuit->components[at];
        size_t start = out->length;
        put(out, "%-6s  %-*s", kind_word(component->kind), width, component->name);
        write_attributes(component, out);
        wire = write_sources(circuit, at, wire, start, out);
        put(out, "\n");
    }
}
