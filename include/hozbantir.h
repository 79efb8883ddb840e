/*
 * hozbantir.h - delay budgets for the nets of a circuit
 *
 * A circuit is a netlist of components with base delays, with arrival times at its inputs and
 * required times at its outputs. Where signals arrive earlier than required there is slack. The
 * library shares that slack out as increments: delay which each component's net may take up when
 * it is placed. While every component stays within its base delay plus its increment (its bound),
 * every output is reached in time.
 *
 *   hozbantir_analyse    netlist           -> slack of each component, at base delays
 *   hozbantir_budget     netlist           -> result: an increment for each component but inputs
 *   hozbantir_read_back  netlist, result   -> bound of each component: base delay plus increment
 *
 * All times and delays are whole picoseconds.
 *
 *
 * FILES
 *
 * Netlists and results are rows of records in memory: one byte of tag, two bytes of length, then
 * as many bytes of contents. Numbers are big-endian. The time field is signed, in two's
 * complement; everything else is unsigned.
 *
 *   file     tag             length  contents (bytes)
 *   netlist   1  component      9    kind (1), base delay (4), time (4)
 *   netlist   2  connection     4    from (2), to (2)
 *   result   16  summary        7    mode (1), share (4), rounds (2)
 *   result   17  bound         10    component (2), base delay (4), increment (4)
 *
 * A netlist is its components, numbered from 0 as they come, and then its connections.
 *
 *   components    1 to 1,024
 *   connections   0 to 4,096; from is below to, both are component numbers, and the connections
 *                 rise strictly by (to, from): to decides, from decides among equals
 *   kind          0 input: no fan-in, some fan-out; its time is its arrival; base delay 0
 *                 1 inner: some fan-in, some fan-out; its time is 0
 *                 2 output: some fan-in, no fan-out; its time is its required time
 *   base delay    0 to 65,535
 *   time          -100,000,000 to 100,000,000
 *
 * A result is one summary, then one bound for each component that is not an input, in rising
 * number.
 *
 *   mode          0 plain, 1 even
 *   share         0 to 200,000,000; 0 in plain mode
 *   rounds        0 to the number of components that are not inputs
 *   base delay    that of the component in the netlist
 *   increment     0 to 200,000,000
 *
 *
 * TIMES
 *
 * The arrival of an input is its time; that of another component is its delay plus the greatest
 * arrival among its fan-in. The required time of an output is its time; that of another component
 * is the least, over its fan-out, of that one's required time less that one's delay. Slack is
 * required time less arrival; it is negative where the circuit is late, and always lies from
 * -267,042,305 to 200,000,000. The circuit is in time when no output has negative slack.
 *
 *
 * BUDGETS
 *
 * Even mode first adds the same amount, the share, to the delay of every component but inputs: the
 * largest whole amount that leaves the circuit in time. Plain mode adds nothing, its share is 0.
 *
 * Then, in both modes, rounds give out the slack that is left. A round starts at a component: of
 * those that are not inputs and have positive slack, the one with the least slack, the lowest
 * number among equals. From there a segment is walked, by the times as the round finds them:
 *
 *   forward    from the last component a to the lowest-numbered b of its fan-out with
 *              required(b) = required(a) + delay(b) and arrival(b) = arrival(a) + delay(b)
 *   backward   from the first component a to the lowest-numbered b of its fan-in, no input, with
 *              required(b) = required(a) - delay(a) and arrival(b) = arrival(a) - delay(a)
 *
 * From first to last of the segment, each component gets the slack still to be given divided by
 * the number of components still to serve, rounded down. Then all times are worked out again, and
 * rounds go on until no component but an input has positive slack. There are at most as many
 * rounds as components that are not inputs. A component's increment is its final delay, share
 * included, less its base delay; it can be 0.
 *
 * Input nets take no delay: they have no bound record in a result, and bound 0 in read back. An
 * input may keep slack.
 *
 *
 * ANSWERS
 *
 * Each call returns one number, which HOZBANTIR_NUMBER and HOZBANTIR_PLACE take apart:
 *
 *   number 0       success. The place is how much was written, from the start of the buffer:
 *                  numbers for analyse and read back, bytes for budget. All other bytes of the
 *                  buffer keep their values.
 *   number 1 to 11 refusal. The place says where or how much. The buffer keeps all its bytes.
 *                  No call answers with 9.
 *
 * hozbantir_refusal_name gives a number's name as the table below has it. Slacks and bounds come as
 * four big-endian bytes each: hozbantir_signed_at reads the slack of a component from them, and
 * hozbantir_number_at its bound.
 *
 *   no.  HOZBANTIR_REFUSED_   given exactly when                             place
 *    1   MODE      mode is above 1                                           0
 *    2   BROKEN    fewer than 3 bytes are left for a record's head, or its   offset of the record
 *                  length runs past the end of the netlist
 *    3   TAG       a tag other than 1 and 2, a wrong length for the tag, or  offset of the record
 *                  a component after a connection
 *    4   SIZE      the 1,025th component, or the 4,097th connection;         offset of the record
 *                  a netlist without a component                             netlist's length
 *    5   FIELD     a component's kind, base delay or time outside the rules  offset of the record
 *    6   WIRING    a connection with a number that is no component's, with   offset of the record
 *                  from not below to, or not above the connection before it
 *    7   ENDS      an input with fan-in, an output with fan-out, no input    lowest such component
 *                  and without fan-in, or no output and without fan-out
 *    8   LATE      an output has negative slack at base delays               lowest such output
 *   10   ROOM      the buffer is too short                                   room needed
 *   11   RESULT    the result does not fit the netlist or breaks its rules   offset of the record
 *
 * Offsets count bytes from the start of the netlist, or of the result for RESULT. The room needed
 * counts numbers for analyse and read back, bytes for budget.
 *
 * If several could be given, this order decides. MODE comes first. Then the records of the netlist
 * from front to back: the first faulty one, and within it the lowest number from BROKEN to WIRING.
 * Then SIZE for the empty netlist, ENDS, LATE, RESULT and ROOM. Not every call gives all:
 *
 *   analyse     BROKEN to ENDS, ROOM
 *   budget      MODE, BROKEN to ENDS, LATE, ROOM
 *   read back   BROKEN to ENDS, RESULT, ROOM
 *
 * RESULT is given for the first record of the result that is not the one due there: a record that
 * is broken, of another tag or length, missing, out of order or left over; a mode above 1; a share
 * above 200,000,000, or not 0 in mode 0; rounds above the number of components but inputs; a base
 * delay unlike the netlist's; an increment above 200,000,000. The offset of a missing record is
 * the length of the result.
 *
 *
 * MEMORY
 *
 * All memory is the caller's. The library allocates nothing, keeps nothing between calls, has no
 * global state, and reads and writes only what it is lent; calls from several threads at once are
 * safe as long as no buffer that is written is shared between them.
 *
 * The slices lent to one call must not overlap. The library's proof assumes this, and nothing
 * checks it. Each pointer must be good for as many bytes as its length says. A null pointer is
 * allowed with length 0 and counts as an empty slice. No alignment is asked for.
 *
 * Stack needed by each call, in bytes:
 *   analyse 49,152, budget 61,440, read back 36,864
 * Measured on a painted stack at 1,024 components and 4,096 connections: 43,223, 55,575 and 30,967.
 * The numbers above are multiples of 4,096 which leave 4,096 bytes or more to spare. A program's
 * first call took 3,152 to 3,168 more where memset is bound on first use, which is within what is
 * spared.
 *
 *
 * EXAMPLE
 *
 * Inputs 0 (arrival 0) and 1 (arrival 5), inner 2 (delay 3), output 3 (delay 2, required 20);
 * connections 0 to 2, 1 to 3, 2 to 3. The netlist has 69 bytes:
 *
 *   1 0 9  0  0 0 0 0  0 0 0  0     2 0 4  0 0  0 2
 *   1 0 9  0  0 0 0 0  0 0 0  5     2 0 4  0 1  0 3
 *   1 0 9  1  0 0 0 3  0 0 0  0     2 0 4  0 2  0 3
 *   1 0 9  2  0 0 0 2  0 0 0 20
 *
 * Its slacks are 15, 13, 15, 13. Budget in plain mode takes two rounds and writes 36 bytes:
 *
 *   16 0  7  0  0 0 0 0  0 2
 *   17 0 10  0 2  0 0 0 3  0 0 0  2
 *   17 0 10  0 3  0 0 0 2  0 0 0 13
 *
 * Read back makes the bounds 0, 0, 5, 15 of that. In even mode the share is 7, one round follows,
 * the increments are 7 and 8, and the bounds 0, 0, 10, 10.
 *
 *   uint8_t result[HOZBANTIR_MOST_RESULT_LENGTH];
 *   uint64_t answer = hozbantir_budget(HOZBANTIR_EVEN, netlist, length, result, sizeof result);
 *   if (HOZBANTIR_NUMBER(answer) == HOZBANTIR_SUCCESS)
 *       save(result, HOZBANTIR_PLACE(answer));
 *   else
 *       complain(hozbantir_refusal_name(HOZBANTIR_NUMBER(answer)), HOZBANTIR_PLACE(answer));
 */

#ifndef HOZBANTIR_H
#define HOZBANTIR_H

#include <stddef.h>
#include <stdint.h>

#ifdef __cplusplus
extern "C" {
#endif

/* The number of the landing (docs/landings) is the minor part. */
#define HOZBANTIR_VERSION "0.6"

/* The two parts of an answer. */
#define HOZBANTIR_NUMBER(answer) ((uint32_t)((uint64_t)(answer) >> 32))
#define HOZBANTIR_PLACE(answer) ((uint32_t)((uint64_t)(answer) & UINT32_C(0xffffffff)))

/* Numbers of answers. */
#define HOZBANTIR_SUCCESS 0
#define HOZBANTIR_REFUSED_MODE 1
#define HOZBANTIR_REFUSED_BROKEN 2
#define HOZBANTIR_REFUSED_TAG 3
#define HOZBANTIR_REFUSED_SIZE 4
#define HOZBANTIR_REFUSED_FIELD 5
#define HOZBANTIR_REFUSED_WIRING 6
#define HOZBANTIR_REFUSED_ENDS 7
#define HOZBANTIR_REFUSED_LATE 8
#define HOZBANTIR_REFUSED_ROOM 10
#define HOZBANTIR_REFUSED_RESULT 11

/* Modes of budget, and of a summary record. */
#define HOZBANTIR_PLAIN 0
#define HOZBANTIR_EVEN 1

/* Tags of records. */
#define HOZBANTIR_TAG_COMPONENT 1
#define HOZBANTIR_TAG_CONNECTION 2
#define HOZBANTIR_TAG_SUMMARY 16
#define HOZBANTIR_TAG_BOUND 17

/* Kinds of components. */
#define HOZBANTIR_KIND_INPUT 0
#define HOZBANTIR_KIND_INNER 1
#define HOZBANTIR_KIND_OUTPUT 2

/* Limits. */
#define HOZBANTIR_MOST_COMPONENTS 1024
#define HOZBANTIR_MOST_CONNECTIONS 4096
#define HOZBANTIR_MOST_BASE_DELAY 65535
#define HOZBANTIR_MOST_TIME 100000000
#define HOZBANTIR_MOST_INCREMENT 200000000

/* Bytes needed for the numbers of so many components: slacks, or bounds. */
#define HOZBANTIR_NUMBERS_LENGTH(components) ((size_t)4 * (components))

/* Bytes needed for a result with so many components that are not inputs. */
#define HOZBANTIR_RESULT_LENGTH(non_inputs) ((size_t)10 + (size_t)13 * (non_inputs))

/* Buffers of these lengths in bytes are long enough for any netlist. */
#define HOZBANTIR_MOST_NUMBERS_LENGTH HOZBANTIR_NUMBERS_LENGTH(HOZBANTIR_MOST_COMPONENTS)
#define HOZBANTIR_MOST_RESULT_LENGTH HOZBANTIR_RESULT_LENGTH(HOZBANTIR_MOST_COMPONENTS - 1)

/*
 * Writes the slack of each component at base delays, in order of number: four bytes each,
 * big-endian, two's complement.
 *
 * All lengths are in bytes. There is room for slacks_length / 4 slacks, a rest of fewer than four
 * bytes counts for nothing. One slack for each component is needed: HOZBANTIR_NUMBERS_LENGTH.
 * On success the place is the number of components. A late circuit is analysed like any other.
 */
uint64_t hozbantir_analyse(const uint8_t *netlist, size_t netlist_length,
                           uint8_t *slacks, size_t slacks_length);

/*
 * Writes a result: the summary, then a bound record for each component that is not an input.
 *
 * Mode is HOZBANTIR_PLAIN or HOZBANTIR_EVEN. All lengths are in bytes. Needed are 10 bytes, and 13
 * for each component that is not an input: HOZBANTIR_RESULT_LENGTH. On success the place is the
 * number of bytes written, which is that length; hand exactly those bytes to read back.
 */
uint64_t hozbantir_budget(uint32_t mode,
                          const uint8_t *netlist, size_t netlist_length,
                          uint8_t *result, size_t result_length);

/*
 * Writes the bound of each component from a result for the netlist, in order of number: 0 for an
 * input, base delay plus increment for another; four bytes each, big-endian, unsigned.
 *
 * All lengths are in bytes; result_length is that of the result itself. There is room for
 * bounds_length / 4 bounds, a rest of fewer than four bytes counts for nothing. One bound for each
 * component is needed: HOZBANTIR_NUMBERS_LENGTH. On success the place is the number of components.
 * The circuit's times are not judged here, so a late circuit is not refused, and any increments
 * within the limits are accepted.
 */
uint64_t hozbantir_read_back(const uint8_t *netlist, size_t netlist_length,
                             const uint8_t *result, size_t result_length,
                             uint8_t *bounds, size_t bounds_length);

/* The number at a place, from 0, of a buffer of numbers. Nothing checks that it is that long. */
static inline uint32_t hozbantir_number_at(const uint8_t *numbers, size_t at)
{
    const uint8_t *bytes = numbers + 4 * at;
    return (uint32_t)bytes[0] << 24 | (uint32_t)bytes[1] << 16 | (uint32_t)bytes[2] << 8
           | (uint32_t)bytes[3];
}

/* The same in two's complement. Only numbers that an int32_t can hold are made into one. */
static inline int32_t hozbantir_signed_at(const uint8_t *numbers, size_t at)
{
    uint32_t number = hozbantir_number_at(numbers, at);
    return number < UINT32_C(0x80000000) ? (int32_t)number
                                         : -1 - (int32_t)(UINT32_C(0xffffffff) - number);
}

/* The name of an answer's number: "MODE" to "RESULT", "success" for 0, "unknown" for any other. */
static inline const char *hozbantir_refusal_name(uint32_t number)
{
    switch (number) {
    case HOZBANTIR_SUCCESS: return "success";
    case HOZBANTIR_REFUSED_MODE: return "MODE";
    case HOZBANTIR_REFUSED_BROKEN: return "BROKEN";
    case HOZBANTIR_REFUSED_TAG: return "TAG";
    case HOZBANTIR_REFUSED_SIZE: return "SIZE";
    case HOZBANTIR_REFUSED_FIELD: return "FIELD";
    case HOZBANTIR_REFUSED_WIRING: return "WIRING";
    case HOZBANTIR_REFUSED_ENDS: return "ENDS";
    case HOZBANTIR_REFUSED_LATE: return "LATE";
    case HOZBANTIR_REFUSED_ROOM: return "ROOM";
    case HOZBANTIR_REFUSED_RESULT: return "RESULT";
    default: return "unknown";
    }
}

#ifdef __cplusplus
}
#endif

#endif
