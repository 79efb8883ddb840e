/*
 * The library has judged. Here the record or component that it points at is looked at once more,
 * only to say which of the rules behind its number is the broken one, and where in the text it
 * came from.
 */
#include "refusals.h"

#include <inttypes.h>
#include <stdio.h>

#include "hozbantir.h"
#include "records.h"

static const struct place nowhere = {.where = NOWHERE};

/* What stands at the offset that a refusal names. */
struct found {
    const uint8_t *record;
    enum record kind; /* of a circuit that was read from a text */
    size_t number;
    struct place at;
};

static struct found find(const struct asked *asked, uint32_t offset)
{
    struct found found = {.record = asked->netlist + offset, .at = {.where = AT_BYTE, .byte = offset}};
    if (asked->from_text) {
        found.kind = record_at(asked->circuit, offset, &found.number);
        found.at = found.kind == CONNECTION_RECORD  ? asked->circuit->wires[found.number].at
                   : found.kind == COMPONENT_RECORD ? asked->circuit->components[found.number].at
                   : found.kind == EARLY_RECORD     ? asked->circuit->components[found.number].early_at
                                                    : nowhere;
    }
    return found;
}

/* In a netlist file components have no names: n and the number stands for them. */
static const char *name_of(const struct asked *asked, uint32_t number, char room[16])
{
    if (number < asked->circuit->count) {
        return asked->circuit->components[number].name;
    }
    snprintf(room, 16, "n%" PRIu32, number);
    return room;
}

static void explain_tag(struct report *report, struct found found)
{
    unsigned tag = found.record[0], size = (unsigned)field(found.record + 1, 2);
    if (found.kind == CONNECTION_RECORD) {
        complain(report, found.at, "this library takes no delays of pins");
        hint(report, "until it does, a gate with that delay can stand between the two");
    } else if (found.kind == EARLY_RECORD) {
        complain(report, found.at, "this library takes no early times");
    } else if (tag == HOZBANTIR_TAG_COMPONENT && size == 9) {
        complain(report, found.at, "a component stands behind a connection: all components come first");
    } else if (tag == HOZBANTIR_TAG_COMPONENT || tag == HOZBANTIR_TAG_CONNECTION) {
        bool component = tag == HOZBANTIR_TAG_COMPONENT;
        complain(report, found.at, "a %s record has length %u, and not %u", component ? "component" : "connection",
                 component ? 9U : 4U, size);
    } else {
        complain(report, found.at, "tag %u is not one of a netlist's records", tag);
        if (found.at.byte == 0 && tag == HOZBANTIR_TAG_SUMMARY) {
            hint(report, "this looks like a result: the circuit comes first, then its result");
        }
    }
}

static void explain_size(struct report *report, struct found found)
{
    if (found.record[0] == HOZBANTIR_TAG_COMPONENT) {
        complain(report, found.at, "this is component number 1025, and a netlist has at most 1024");
    } else {
        complain(report, found.at, "this is connection number 4097, and a netlist has at most 4096");
        if (found.kind == CONNECTION_RECORD) {
            hint(report, "connections are counted by the lines of what they feed");
        }
    }
}

static void explain_field(struct report *report, const struct asked *asked, struct found found)
{
    const uint8_t *contents = found.record + 3;
    uint32_t number = found.at.where == AT_BYTE ? found.at.byte / 12 : (uint32_t)found.number;
    uint32_t delay = field(contents + 1, 4);
    int32_t time = hozbantir_signed_at(contents + 5, 0);
    struct place delay_at = asked->from_text ? asked->circuit->components[number].delay_at : found.at;
    struct place time_at = asked->from_text ? asked->circuit->components[number].time_at : found.at;
    char room[16];
    const char *name = name_of(asked, number, room);
    if (contents[0] > HOZBANTIR_KIND_OUTPUT) {
        complain(report, found.at, "`%s` is of kind %u: 0 is an input, 1 a gate, 2 an output", name, contents[0]);
    } else if (delay > HOZBANTIR_MOST_BASE_DELAY) {
        complain(report, delay_at, "%s `%s` has a base delay of %" PRIu32 " ps: 0 to 65535 are taken",
                 kind_word(contents[0]), name, delay);
    } else if (contents[0] == HOZBANTIR_KIND_INPUT && delay != 0) {
        complain(report, delay_at, "input `%s` has a delay of %" PRIu32 " ps: this library lets inputs have none", name,
                 delay);
        hint(report, "add it to the arrival, or put a gate with that delay behind the input");
    } else if (contents[0] == HOZBANTIR_KIND_INNER && time != 0) {
        complain(report, time_at, "gate `%s` has a time, %" PRId32 " ps: only inputs and outputs have one", name, time);
    } else {
        complain(report, time_at, "%s `%s` has a time of %" PRId32 " ps: -100000000 to 100000000 are taken",
                 kind_word(contents[0]), name, time);
    }
}

/* The lowest number that is no component's: components stand first, twelve bytes each. */
static uint32_t count_components(const struct asked *asked)
{
    uint32_t count = 0;
    while ((count + 1) * 12 <= asked->length && asked->netlist[count * 12] == HOZBANTIR_TAG_COMPONENT) {
        count++;
    }
    return count;
}

static void explain_wiring(struct report *report, const struct asked *asked, struct found found)
{
    uint32_t from = field(found.record + 3, 2), to = field(found.record + 5, 2), count = count_components(asked);
    char room[16], other[16];
    const char *source = name_of(asked, from, room), *target = name_of(asked, to, other);
    if (from >= count || to >= count) {
        complain(report, found.at,
                 "a connection from component %" PRIu32 " to %" PRIu32 ", where the count is %" PRIu32, from, to,
                 count);
    } else if (from == to) {
        complain(report, found.at, "`%s` feeds itself", source);
    } else if (from > to) {
        complain(report, found.at, "`%s` is fed by `%s`, which comes after it", target, source);
        if (asked->from_text) {
            hint(report, "lines give the order: move line %u below line %u",
                 (unsigned)asked->circuit->components[to].at.line, (unsigned)asked->circuit->components[from].at.line);
        }
    } else if (asked->from_text) {
        complain(report, found.at, "`%s` feeds `%s` twice", source, target);
    } else {
        complain(report, found.at, "the connection from `%s` to `%s` is out of order: they rise by (to, from)", source,
                 target);
    }
}

static bool is_fed(const struct circuit *circuit, uint32_t number)
{
    size_t at = 0;
    while (at < circuit->wire_count && circuit->wires[at].to != number) {
        at++;
    }
    return at < circuit->wire_count;
}

static void explain_ends(struct report *report, const struct asked *asked, uint32_t number)
{
    const struct component *component = &asked->circuit->components[number];
    bool fed = is_fed(asked->circuit, number), input = component->kind == HOZBANTIR_KIND_INPUT;
    const char *kind = kind_word(component->kind), *name = component->name, *advice;
    if (input && fed) {
        complain(report, component->at, "input `%s` is fed by another component", name);
        advice = "an input has no `from`; a gate has";
    } else if (!input && !fed) {
        complain(report, component->at, "nothing feeds %s `%s`", kind, name);
        advice = "add `from` and the names of what feeds it";
    } else if (component->kind == HOZBANTIR_KIND_OUTPUT) {
        complain(report, component->at, "output `%s` feeds another component, which this library does not take", name);
        advice = "until it does, a gate can feed both: the other component, and an output of delay 0";
    } else {
        complain(report, component->at, "%s `%s` feeds nothing", kind, name);
        advice = "name it behind a `from`, or leave it out";
    }
    if (asked->from_text) {
        hint(report, "%s", advice);
    }
}

static void explain_late(struct report *report, const struct asked *asked, uint32_t number)
{
    const struct circuit *circuit = asked->circuit;
    unsigned late = 0;
    for (size_t at = 0; at < circuit->count; at++) {
        late += circuit->components[at].kind == HOZBANTIR_KIND_OUTPUT && asked->slacks[at] < 0;
    }
    complain(report, circuit->components[number].at, "output `%s` is late by %" PRId32 " ps before any net adds delay",
             circuit->components[number].name, -asked->slacks[number]);
    hint(report, "%u output%s late; `hozbantir slacks --worst 10` shows the worst components", late,
         late == 1 ? " is" : "s are");
}

/* Which component's bound is due at an offset of a result; the count where none is. */
static uint32_t due_at(const struct circuit *circuit, uint32_t offset)
{
    uint32_t number = 0, before = (offset - 10) / 13;
    while (number < circuit->count && (circuit->components[number].kind == HOZBANTIR_KIND_INPUT || before > 0)) {
        before -= circuit->components[number++].kind != HOZBANTIR_KIND_INPUT;
    }
    return number;
}

static void explain_summary(struct report *report, struct place place, const uint8_t *record)
{
    complain(report, place, "a summary with mode %u, share %" PRIu32 " and %" PRIu32 " rounds cannot be", record[3],
             field(record + 4, 4), field(record + 8, 2));
}

static void explain_bound(struct report *report, struct place place, const struct component *component, uint32_t due,
                          const uint8_t *record)
{
    uint32_t number = field(record + 3, 2), base = field(record + 5, 4), increment = field(record + 9, 4);
    if (number != due) {
        complain(report, place, "here the bound of `%s`, component %" PRIu32 ", is due, and that of %" PRIu32 " stands",
                 component->name, due, number);
    } else if (base != component->delay) {
        complain(report, place,
                 "`%s` has a base delay of %" PRIu32 " ps in the result and of %" PRIu32 " ps in the circuit",
                 component->name, base, component->delay);
        hint(report, "the result was made for another version of the circuit");
    } else {
        complain(report, place, "`%s` has an increment of %" PRIu32 " ps: 0 to 200000000 are taken", component->name,
                 increment);
    }
}

static void explain_result(struct report *report, const struct asked *asked, uint32_t offset)
{
    struct place place = {.where = AT_BYTE, .byte = offset};
    const uint8_t *record = asked->result + offset;
    size_t left = asked->result_length - offset;
    uint32_t due = offset == 0 ? 0 : due_at(asked->circuit, offset);
    unsigned tag = offset == 0 ? HOZBANTIR_TAG_SUMMARY : HOZBANTIR_TAG_BOUND, size = offset == 0 ? 7 : 10;
    char wanted[MOST_NAME + 20] = "the summary";
    if (offset > 0 && due < asked->circuit->count) {
        snprintf(wanted, sizeof wanted, "the bound of `%s`", asked->circuit->components[due].name);
    }
    if (offset == 0 && left > 0 && record[0] >= 32) {
        complain(report, place, "this is no result file");
        hint(report, "`hozbantir budget --result` writes one");
    } else if (due == asked->circuit->count) {
        complain(report, place, "the result goes on behind the last bound");
    } else if (left == 0) {
        complain(report, place, "the result ends before %s", wanted);
    } else if (left < 3 || field(record + 1, 2) > left - 3) {
        complain(report, place, "the result is cut off within %s", wanted);
    } else if (record[0] != tag || field(record + 1, 2) != size) {
        complain(report, place, "here %s is due, and tag %u with length %u stands", wanted, record[0],
                 (unsigned)field(record + 1, 2));
    } else if (offset == 0) {
        explain_summary(report, place, record);
    } else {
        explain_bound(report, place, &asked->circuit->components[due], due, record);
    }
}

/* Refusals whose place is an offset in the netlist. */
static void explain_record(struct report *report, const struct asked *asked, uint32_t number, uint32_t offset)
{
    if (offset >= asked->length) {
        complain(report, nowhere, asked->length == 0 ? "there is no component" : "something is missing at the end");
        return;
    }
    struct found found = find(asked, offset);
    if (number == HOZBANTIR_REFUSED_BROKEN) {
        complain(report, found.at, "a record is cut off by the end of the netlist");
    } else if (number == HOZBANTIR_REFUSED_TAG) {
        explain_tag(report, found);
    } else if (number == HOZBANTIR_REFUSED_SIZE) {
        explain_size(report, found);
    } else if (number == HOZBANTIR_REFUSED_FIELD) {
        explain_field(report, asked, found);
    } else {
        explain_wiring(report, asked, found);
    }
}

void explain(struct report *report, const struct asked *asked, uint64_t answer)
{
    uint32_t number = HOZBANTIR_NUMBER(answer), place = HOZBANTIR_PLACE(answer);
    if (number >= HOZBANTIR_REFUSED_BROKEN && number <= HOZBANTIR_REFUSED_WIRING) {
        explain_record(report, asked, number, place);
    } else if (number == HOZBANTIR_REFUSED_ENDS) {
        explain_ends(report, asked, place);
    } else if (number == HOZBANTIR_REFUSED_LATE) {
        explain_late(report, asked, place);
    } else if (number == HOZBANTIR_REFUSED_RESULT) {
        explain_result(report, asked, place);
    } else {
        complain(report, nowhere, "the library answers with refusal %" PRIu32 " (%s), place %" PRIu32, number,
                 hozbantir_refusal_name(number), place);
    }
}
