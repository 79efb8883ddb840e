/* Records, read here a second time: each field where README.md says that it stands. */
#include "records.h"

#include "trial.h"

/* What stands at an offset of a netlist. */
struct due {
    enum record record;
    size_t number;
};

static uint32_t number_at(const struct bytes *netlist, size_t at, unsigned size)
{
    uint32_t number = 0;
    must(at + size <= netlist->length, "a netlist ends with a record");
    for (unsigned next = 0; next < size; next++) {
        number = number << 8 | netlist->at[at + next];
    }
    return number;
}

/* A check of three bytes, which every record begins with. */
static bool has_head(const struct bytes *netlist, size_t at, uint32_t tag, uint32_t length)
{
    return number_at(netlist, at, 1) == tag && number_at(netlist, at + 1, 2) == length;
}

static void must_find(const struct circuit *circuit, size_t at, struct due due)
{
    size_t number = 0;
    enum record found = record_at(circuit, at, &number);
    must(found == due.record, "record_at finds what stands there");
    must(found == NO_RECORD || number == due.number, "record_at finds whose it is");
}

/* Finds the record, and nothing at the bytes behind its first. Says where the next begins. */
static size_t pass(const struct circuit *circuit, size_t at, size_t length, struct due due)
{
    must_find(circuit, at, due);
    for (size_t inside = 1; inside < length; inside++) {
        must_find(circuit, at + inside, (struct due){NO_RECORD, 0});
    }
    return at + length;
}

static size_t check_component(const struct circuit *circuit, const struct bytes *netlist, size_t at, size_t number)
{
    const struct component *component = &circuit->components[number];
    must(has_head(netlist, at, 1, 9), "a component has tag 1 and length 9");
    must(number_at(netlist, at + 3, 1) == component->kind, "a component's kind is in its record");
    must(number_at(netlist, at + 4, 4) == component->delay, "a component's delay is in its record");
    must(number_at(netlist, at + 8, 4) == (uint32_t)component->time, "a component's time is in its record");
    return pass(circuit, at, 12, (struct due){COMPONENT_RECORD, number});
}

static size_t check_wire(const struct circuit *circuit, const struct bytes *netlist, size_t at, size_t number)
{
    const struct wire *wire = &circuit->wires[number];
    must(has_head(netlist, at, 2, wire->has_pin ? 6 : 4), "a connection has tag 2, and length 4 or with a pin 6");
    must(number_at(netlist, at + 3, 2) == wire->from, "where a wire comes from is in its record");
    must(number_at(netlist, at + 5, 2) == wire->to, "where a wire goes is in its record");
    must(!wire->has_pin || number_at(netlist, at + 7, 2) == wire->pin, "a pin's delay is in its record");
    return pass(circuit, at, wire->has_pin ? 9 : 7, (struct due){CONNECTION_RECORD, number});
}

static size_t check_early(const struct circuit *circuit, const struct bytes *netlist, size_t at, size_t number)
{
    if (!circuit->components[number].has_early) {
        return at;
    }
    must(has_head(netlist, at, 3, 6), "an early time has tag 3 and length 6");
    must(number_at(netlist, at + 3, 2) == number, "whose the early time is stands in its record");
    uint32_t early = (uint32_t)circuit->components[number].early;
    must(number_at(netlist, at + 5, 4) == early, "an early time is in its record");
    return pass(circuit, at, 9, (struct due){EARLY_RECORD, number});
}

void check_records(const struct circuit *circuit, const struct bytes *netlist)
{
    size_t at = 0;
    for (size_t number = 0; number < circuit->count; number++) {
        at = check_component(circuit, netlist, at, number);
    }
    for (size_t number = 0; number < circuit->wire_count; number++) {
        at = check_wire(circuit, netlist, at, number);
    }
    for (size_t number = 0; number < circuit->count; number++) {
        at = check_early(circuit, netlist, at, number);
    }
    must(at == netlist->length, "a netlist has no more than its records");
    pass(circuit, at, 30, (struct due){NO_RECORD, 0});
}
