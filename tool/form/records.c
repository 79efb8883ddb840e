#include "records.h"

#include <stdio.h>

#include "hozbantir.h"

/* An early time's tag: no library knows it yet, and then it is the library that says so. */
enum { TAG_EARLY = 3 };

/* Bytes of each record, its head of three included. */
enum { HEAD = 3, COMPONENT = 12, CONNECTION = 7, PIN = 2, EARLY = 9 };

static void put_head(struct bytes *out, unsigned tag, unsigned size)
{
    put_number(out, tag, 1);
    put_number(out, size - HEAD, 2);
}

static size_t wire_size(const struct wire *wire)
{
    return wire->has_pin ? CONNECTION + PIN : CONNECTION;
}

static void put_component(struct bytes *out, const struct component *component)
{
    put_head(out, HOZBANTIR_TAG_COMPONENT, COMPONENT);
    put_number(out, component->kind, 1);
    put_number(out, component->delay, 4);
    put_number(out, (uint32_t)component->time, 4);
}

static void put_wire(struct bytes *out, const struct wire *wire)
{
    put_head(out, HOZBANTIR_TAG_CONNECTION, (unsigned)wire_size(wire));
    put_number(out, wire->from, 2);
    put_number(out, wire->to, 2);
    if (wire->has_pin) {
        put_number(out, wire->pin, PIN);
    }
}

static void put_early(struct bytes *out, size_t number, int32_t early)
{
    put_head(out, TAG_EARLY, EARLY);
    put_number(out, (uint32_t)number, 2);
    put_number(out, (uint32_t)early, 4);
}

void write_netlist(const struct circuit *circuit, struct bytes *out)
{
    for (size_t at = 0; at < circuit->count; at++) {
        put_component(out, &circuit->components[at]);
    }
    for (size_t at = 0; at < circuit->wire_count; at++) {
        put_wire(out, &circuit->wires[at]);
    }
    for (size_t at = 0; at < circuit->count; at++) {
        if (circuit->components[at].has_early) {
            put_early(out, at, circuit->components[at].early);
        }
    }
}

uint32_t field(const uint8_t *bytes, unsigned size)
{
    uint32_t number = 0;
    for (unsigned at = 0; at < size; at++) {
        number = number << 8 | bytes[at];
    }
    return number;
}

static void take_component(struct circuit *circuit, const uint8_t *contents, struct place place)
{
    struct component *new = add_component(circuit);
    snprintf(new->name, sizeof new->name, "n%zu", circuit->count - 1);
    new->kind = contents[0];
    new->delay = field(contents + 1, 4);
    new->time = hozbantir_signed_at(contents + 5, 0);
    new->at = new->delay_at = new->time_at = place;
}

static void take_wire(struct circuit *circuit, const uint8_t *contents, bool has_pin, struct place place)
{
    struct wire *new = add_wire(circuit);
    new->from = field(contents, 2);
    new->to = field(contents + 2, 2);
    new->has_pin = has_pin;
    new->pin = has_pin ? field(contents + 4, PIN) : 0;
    new->at = place;
}

static void take_early(struct component *component, const uint8_t *contents, struct place place)
{
    component->has_early = true;
    component->early = hozbantir_signed_at(contents + 2, 0);
    component->early_at = place;
}

/* False if the record is none that is known here. */
static bool take_record(struct circuit *circuit, const uint8_t *record, size_t size, struct place place)
{
    const uint8_t *contents = record + HEAD;
    if (record[0] == HOZBANTIR_TAG_COMPONENT && size == COMPONENT && contents[0] <= HOZBANTIR_KIND_OUTPUT) {
        take_component(circuit, contents, place);
    } else if (record[0] == HOZBANTIR_TAG_CONNECTION && (size == CONNECTION || size == CONNECTION + PIN)) {
        take_wire(circuit, contents, size > CONNECTION, place);
    } else if (record[0] == TAG_EARLY && size == EARLY && field(contents, 2) < circuit->count) {
        take_early(&circuit->components[field(contents, 2)], contents, place);
    } else {
        return false;
    }
    return true;
}

void read_netlist(const uint8_t *netlist, size_t length, struct circuit *circuit)
{
    bool known = true;
    for (size_t at = 0; known && length - at >= HEAD;) {
        size_t size = HEAD + field(netlist + at + 1, 2);
        struct place place = {.where = AT_BYTE, .byte = (uint32_t)at};
        known = size <= length - at && take_record(circuit, netlist + at, size, place);
        at += known ? size : 0;
    }
}

/* The wire whose record stands so many bytes behind the last component's; how many are left behind the last wire's. */
static size_t find_wire(const struct circuit *circuit, size_t *left)
{
    size_t wire = 0;
    while (wire < circuit->wire_count && *left >= wire_size(&circuit->wires[wire])) {
        *left -= wire_size(&circuit->wires[wire++]);
    }
    return wire;
}

static size_t find_early(const struct circuit *circuit, size_t left)
{
    size_t number = 0;
    while (number < circuit->count && (left >= EARLY || !circuit->components[number].has_early)) {
        left -= circuit->components[number++].has_early ? EARLY : 0;
    }
    return left == 0 ? number : circuit->count;
}

enum record record_at(const struct circuit *circuit, size_t offset, size_t *number)
{
    *number = offset / COMPONENT;
    if (*number < circuit->count) {
        return offset % COMPONENT == 0 ? COMPONENT_RECORD : NO_RECORD;
    }
    size_t left = offset - circuit->count * COMPONENT;
    *number = find_wire(circuit, &left);
    if (*number < circuit->wire_count) {
        return left == 0 ? CONNECTION_RECORD : NO_RECORD;
    }
    *number = find_early(circuit, left);
    return *number < circuit->count ? EARLY_RECORD : NO_RECORD;
}
