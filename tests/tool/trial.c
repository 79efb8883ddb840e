#define _POSIX_C_SOURCE 200809L

#include "trial.h"

#include <stdlib.h>
#include <string.h>

#include "records.h"
#include "text.h"

void must(bool holds, const char *what)
{
    if (!holds) {
        fprintf(stderr, "fuzz: it should hold that %s\n", what);
        abort();
    }
}

uint8_t *exact_copy(const struct bytes *bytes)
{
    uint8_t *copy = malloc(bytes->length);
    must(copy != NULL, "there is memory");
    if (bytes->length > 0) {
        memcpy(copy, bytes->at, bytes->length);
    }
    return copy;
}

static bool are_same(const struct bytes *one, const struct bytes *other)
{
    return one->length == other->length && (one->length == 0 || memcmp(one->at, other->at, one->length) == 0);
}

/* What the records of a netlist say, written again. */
static struct bytes netlist_again(const struct bytes *netlist)
{
    struct circuit circuit = {0};
    struct bytes again = {0};
    uint8_t *copy = exact_copy(netlist);
    read_netlist(copy, netlist->length, &circuit);
    free(copy);
    write_netlist(&circuit, &again);
    free_circuit(&circuit);
    return again;
}

static void check_names(const struct circuit *one, const struct circuit *other)
{
    must(one->count == other->count, "the canonical text has as many components");
    for (size_t at = 0; at < one->count; at++) {
        must(strcmp(one->components[at].name, other->components[at].name) == 0, "the canonical text keeps names");
    }
}

/* The canonical text is read again as the same circuit, and stays as it is. */
static void check_canonical(const struct circuit *circuit, const struct bytes *netlist)
{
    struct bytes text = {0}, again = {0}, records = {0};
    struct circuit other = {0};
    write_text(circuit, &text);
    uint8_t *copy = exact_copy(&text);
    struct report report = {.file = "again", .text = (const char *)copy, .length = text.length, .to = stderr};
    must(read_text(&report, &other), "the canonical text is taken");
    check_places(&other, &report);
    check_names(circuit, &other);
    free(copy);
    write_text(&other, &again);
    must(are_same(&text, &again), "the canonical text is a fixed point");
    write_netlist(&other, &records);
    must(are_same(netlist, &records), "the canonical text has the same records");
    free_circuit(&other);
    free(text.at);
    free(again.at);
    free(records.at);
}

/* Circuits of one kind have the same numbers of everything. */
static uint32_t circuit_kind(const struct circuit *circuit)
{
    uint32_t pins = 0, early = 0;
    for (size_t at = 0; at < circuit->wire_count; at++) {
        pins += circuit->wires[at].has_pin;
    }
    for (size_t at = 0; at < circuit->count; at++) {
        early += circuit->components[at].has_early;
    }
    return (((uint32_t)circuit->count * 31 + (uint32_t)circuit->wire_count) * 31 + pins) * 31 + early;
}

static void check_circuit(const struct circuit *circuit, const struct bytes *netlist)
{
    struct bytes again = netlist_again(netlist);
    must(are_same(netlist, &again), "a netlist that is read is written as it was");
    free(again.at);
    check_records(circuit, netlist);
    check_canonical(circuit, netlist);
}

struct trial try_text(struct dice *dice, const struct bytes *input)
{
    static char said[1 << 16];
    static FILE *listener;
    listener = listener == NULL ? fmemopen(said, sizeof said, "w") : listener;
    must(listener != NULL, "complaints can be listened to");
    rewind(listener);
    struct trial trial = {0};
    struct circuit circuit = {0};
    uint8_t *copy = exact_copy(input);
    struct report report = {.file = "fuzz", .text = (const char *)copy, .length = input->length, .to = listener};
    trial.taken = read_text(&report, &circuit);
    fputc('\0', listener);
    fflush(listener);
    must(trial.taken == (report.complaints == 0), "what is refused is complained of, and nothing else");
    check_complaints(&report, said);
    trial.kind = trial.taken ? circuit_kind(&circuit) : complaint_kind(said);
    if (trial.taken) {
        check_places(&circuit, &report);
        write_netlist(&circuit, &trial.netlist);
        must(is_text(input) && (circuit.count == 0 || !is_text(&trial.netlist)), "text and netlist are told apart");
        check_circuit(&circuit, &trial.netlist);
        trial.drawn = try_picture(dice, &circuit);
    }
    free_circuit(&circuit);
    free(copy);
    return trial;
}

void try_netlist(const struct bytes *input)
{
    struct bytes once = netlist_again(input), twice = netlist_again(&once);
    must(are_same(&once, &twice), "a netlist that was written is read as it was");
    free(once.at);
    free(twice.at);
}
