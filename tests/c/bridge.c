/*
 * Makes the library's calls for the tests, which run in a process of their own: the library is
 * x86-64 code, and only a program of that kind can be linked with it.
 *
 * Requests come on standard input and are answered on standard output, one by one; the end of the
 * input ends the program. Numbers are big-endian, as in the library's own files.
 *
 *   request   call (1 byte)     0 analyse, 1 budget, 2 read back, 3 none at all
 *             task (1)          0 make the call, 1 measure its time, 2 measure its stack
 *             nulls (1)         lend as a null pointer: 1 netlist, 2 result, 4 buffer, or a sum
 *             mode (4)          for budget
 *             repeats (4)       how many calls to make for a time
 *             lengths (4 each)  of netlist, result and buffer
 *             contents          of the three; the buffer's are what it holds before the call
 *
 *   reply     answer (8)        of the last call
 *             measured (8)      nanoseconds of all calls together, or bytes of stack
 *             guards kept (1)   1 if all bytes beside the three slices are as before
 *             inputs kept (1)   1 if netlist and result are as before
 *             contents          of the buffer after the last call
 */

#include <stdbool.h>
#include <stdint.h>
#include <stdio.h>
#include <stdlib.h>

#include "hozbantir.h"
#include "lent.h"
#include "measure.h"

enum { ANALYSE, BUDGET, READ_BACK, NONE };
enum { MAKE, TIME, STACK };
enum { NULL_NETLIST = 1, NULL_RESULT = 2, NULL_BUFFER = 4 };
enum { REQUEST_HEAD = 23, REPLY_HEAD = 18 };

struct request {
    uint8_t call;
    uint8_t task;
    uint8_t nulls;
    uint32_t mode;
    uint32_t repeats;
    struct lent netlist;
    struct lent result;
    struct lent buffer;
    uint64_t answer;
};

static _Noreturn void stop(const char *why)
{
    fprintf(stderr, "bridge: %s\n", why);
    exit(EXIT_FAILURE);
}

static void put_number(uint8_t *bytes, uint64_t number)
{
    for (int at = 7; at >= 0; at--) {
        bytes[at] = (uint8_t)number;
        number >>= 8;
    }
}

static struct lent read_slice(const uint8_t *length_field)
{
    size_t length = hozbantir_number_at(length_field, 0);
    uint8_t *contents = memory_for(length);
    if (fread(contents, 1, length, stdin) != length) {
        stop("the input ends within a request");
    }
    return lend(contents, length);
}

/* False at the end of the input. */
static bool read_request(struct request *request)
{
    uint8_t head[REQUEST_HEAD];
    size_t there = fread(head, 1, sizeof head, stdin);
    if (there == 0) {
        return false;
    }
    if (there != sizeof head) {
        stop("the input ends within the head of a request");
    }
    request->call = head[0];
    request->task = head[1];
    request->nulls = head[2];
    request->mode = hozbantir_number_at(head + 3, 0);
    request->repeats = hozbantir_number_at(head + 7, 0);
    request->netlist = read_slice(head + 11);
    request->result = read_slice(head + 15);
    request->buffer = read_slice(head + 19);
    request->answer = 0;
    return true;
}

/* Where the slice begins as the call is told. */
static uint8_t *lent_at(const struct request *request, const struct lent *lent, int null)
{
    if ((request->nulls & null) == 0) {
        return lent->start;
    }
    if (lent->length != 0) {
        stop("a null pointer was asked for with a length");
    }
    return NULL;
}

static void make_call(void *given)
{
    struct request *request = given;
    const uint8_t *netlist = lent_at(request, &request->netlist, NULL_NETLIST);
    const uint8_t *result = lent_at(request, &request->result, NULL_RESULT);
    uint8_t *buffer = lent_at(request, &request->buffer, NULL_BUFFER);
    size_t netlist_length = request->netlist.length;
    size_t result_length = request->result.length;
    size_t length = request->buffer.length;
    switch (request->call) {
    case ANALYSE:
        request->answer = hozbantir_analyse(netlist, netlist_length, buffer, length);
        break;
    case BUDGET:
        request->answer =
            hozbantir_budget(request->mode, netlist, netlist_length, buffer, length);
        break;
    case READ_BACK:
        request->answer = hozbantir_read_back(netlist, netlist_length, result, result_length,
                                              buffer, length);
        break;
    case NONE:
        request->answer = 0;
        break;
    default:
        stop("no such call");
    }
}

/* The buffer is put back before each call, outside the time measured. */
static uint64_t time_calls(struct request *request)
{
    uint64_t sum = 0;
    for (uint32_t at = 0; at < request->repeats; at++) {
        restore(&request->buffer);
        sum += nanoseconds_of(make_call, request);
    }
    return sum;
}

/* What the task measures. */
static uint64_t carry_out(struct request *request)
{
    switch (request->task) {
    case MAKE:
        make_call(request);
        break;
    case TIME:
        return time_calls(request);
    case STACK:
        return stack_of(make_call, request);
    default:
        stop("no such task");
    }
    return 0;
}

static void reply(const struct request *request, uint64_t measured)
{
    uint8_t head[REPLY_HEAD];
    put_number(head, request->answer);
    put_number(head + 8, measured);
    head[16] = guards_kept(&request->netlist) && guards_kept(&request->result)
               && guards_kept(&request->buffer);
    head[17] = contents_kept(&request->netlist) && contents_kept(&request->result);
    size_t length = request->buffer.length;
    if (fwrite(head, 1, sizeof head, stdout) != sizeof head
        || fwrite(request->buffer.start, 1, length, stdout) != length || fflush(stdout) != 0) {
        stop("the reply can not be written");
    }
}

int main(void)
{
    /* So large that most requests and replies go through in one piece. */
    static char input[1 << 17];
    static char output[1 << 17];
    setvbuf(stdin, input, _IOFBF, sizeof input);
    setvbuf(stdout, output, _IOFBF, sizeof output);
    struct request request;
    while (read_request(&request)) {
        uint64_t measured = carry_out(&request);
        reply(&request, measured);
        give_back(&request.netlist);
        give_back(&request.result);
        give_back(&request.buffer);
    }
    return 0;
}
