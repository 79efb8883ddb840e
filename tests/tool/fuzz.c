/*
 * Tries the reader of the text form, the records and the picture on inputs that chance makes.
 *
 *   fuzz SECONDS SEED FILE..
 *
 * The files, and a text from here, are changed at random until the time is over. What is taken, or
 * leads to a complaint of a new kind, is changed further, so that inputs go deep. Made with the
 * sanitizers; the same seed and files give the same inputs.
 */
#define _POSIX_C_SOURCE 200809L

#include <inttypes.h>
#include <sanitizer/lsan_interface.h>
#include <signal.h>
#include <stdlib.h>
#include <string.h>
#include <time.h>
#include <unistd.h>

#include "trial.h"

/* An input that takes so many seconds counts as one that never ends. */
enum { LONGEST_TRIAL = 60, MOST_POOLED = 2000, KINDS = 1 << 16 };

/* Something of all that the form allows; it has to be taken as it is. */
static const char usual[] = "\xef\xbb\xbf# early times, a slow pin, a line carried on\n"
                            "input  start  at 0  early -5\n"
                            "input  /HOLD# delay 0 at -300\r\n"
                            "gate   n1.2   from start /HOLD#+300 delay 00000000000000000000000000000400\n"
                            "output D[3]   delay 300 by 1900 early 500 \\\n   from n1.2\n"
                            "gate   1_a.b~!*$@%&|^?[]<>-/abcdefghijklmnopqrstuvwxyz0123456789-ABCDE\t delay 3 "
                            "from start\n"
                            "gate   _      delay 7 from start start+0 # twice\n"
                            "output ~q     by 99 delay 65535 from _ n1.2 start \\\r\n"
                            " 1_a.b~!*$@%&|^?[]<>-/abcdefghijklmnopqrstuvwxyz0123456789-ABCDE /HOLD#";

static struct {
    struct pool pool;
    size_t seeds; /* these stay in the pool */
    uint64_t inputs, taken, complaint_kinds, pictures, netlists;
    bool seen[2][KINDS]; /* complaints, circuits */
} run;

/* What is tried now, for the case that it ends the program. */
static struct {
    uint64_t seed, number;
    struct bytes input;
} now;

/* Called where the program is about to end, so it may do what signal handlers had better not. */
static void show_input(int signal)
{
    fprintf(stderr, "\nfuzz: seed %" PRIu64 ", input %" PRIu64 ", signal %d:\n", now.seed, now.number, signal);
    for (size_t at = 0; at < now.input.length; at++) {
        uint8_t byte = now.input.at[at];
        bool plain = byte >= 32 && byte < 127 && byte != '\\';
        fprintf(stderr, plain ? "%c" : byte == '\n' ? "\\n\n" : "\\x%02x", byte);
    }
    fputs("\n", stderr);
    _exit(1);
}

static void add_to_pool(const uint8_t *at, size_t length)
{
    struct pool *pool = &run.pool;
    pool->inputs = grown(pool->inputs, &pool->room, pool->count + 1, sizeof *pool->inputs);
    struct bytes *new = &pool->inputs[pool->count++];
    *new = (struct bytes){0};
    replace(new, 0, 0, at, length);
}

/* A full pool forgets something that is no seed. */
static void keep(struct dice *dice, const struct bytes *input)
{
    if (run.pool.count < MOST_POOLED) {
        add_to_pool(input->at, input->length);
        return;
    }
    struct bytes *old = &run.pool.inputs[run.seeds + below(dice, run.pool.count - run.seeds)];
    replace(old, 0, old->length, input->at, input->length);
}

static bool read_seed(const char *name)
{
    static uint8_t room[1 << 16];
    FILE *file = fopen(name, "rb");
    if (file == NULL) {
        perror(name);
        return false;
    }
    size_t length = fread(room, 1, sizeof room, file);
    fclose(file);
    add_to_pool(room, length);
    return true;
}

/* Changed records must not end the program either; nor may a text that is taken for records. */
static void try_as_netlist(struct dice *dice, const struct trial *trial)
{
    replace(&now.input, 0, trial->taken ? now.input.length : 0, trial->netlist.at, trial->netlist.length);
    mutate(dice, &run.pool, &now.input);
    try_netlist(&now.input);
    run.netlists++;
}

static void try_input(struct dice *dice)
{
    bool changed = now.number >= run.seeds; /* the seeds come first, as they are */
    struct bytes *from = &run.pool.inputs[changed ? below(dice, run.pool.count) : now.number];
    replace(&now.input, 0, now.input.length, from->at, from->length);
    if (changed) {
        mutate(dice, &run.pool, &now.input);
    }
    struct trial trial = try_text(dice, &now.input);
    must(trial.taken || now.number > 0, "a sound text is taken");
    bool *seen = &run.seen[trial.taken][trial.kind % KINDS];
    if (!*seen) {
        keep(dice, &now.input);
    }
    run.inputs++;
    run.taken += trial.taken;
    run.pictures += trial.drawn;
    run.complaint_kinds += !trial.taken && !*seen;
    *seen = true;
    if (below(dice, 4) == 0) {
        try_as_netlist(dice, &trial);
    }
    free(trial.netlist.at);
}

/* Looked at now and then, as to find all that was lost at the end would take longer than the run itself. */
static void check_memory(void)
{
    bool is_power = (now.number & (now.number - 1)) == 0;
    must(!is_power || __lsan_do_recoverable_leak_check() == 0, "all memory is given back");
}

/* Input after input, until the time is over. */
static void try_all(time_t seconds)
{
    struct dice dice = {now.seed};
    struct timespec start, at;
    clock_gettime(CLOCK_MONOTONIC, &start);
    do {
        alarm(LONGEST_TRIAL);
        try_input(&dice);
        now.number++;
        check_memory();
        clock_gettime(CLOCK_MONOTONIC, &at);
    } while (at.tv_sec - start.tv_sec < seconds || (at.tv_sec - start.tv_sec == seconds && at.tv_nsec < start.tv_nsec));
    alarm(0);
}

static void free_all(void)
{
    for (size_t at = 0; at < run.pool.count; at++) {
        free(run.pool.inputs[at].at);
    }
    free(run.pool.inputs);
    free(now.input.at);
}

static bool is_number(const char *word)
{
    return *word != '\0' && word[strspn(word, "0123456789")] == '\0';
}

int main(int count, char **arguments)
{
    bool sound = count >= 3 && is_number(arguments[1]) && is_number(arguments[2]);
    now.seed = sound ? strtoull(arguments[2], NULL, 10) : 0;
    add_to_pool((const uint8_t *)usual, sizeof usual - 1);
    for (int at = 3; at < count; at++) {
        sound = read_seed(arguments[at]) && sound;
    }
    if (!sound) {
        fputs("usage: fuzz SECONDS SEED FILE..\n", stderr);
        return 2;
    }
    run.seeds = run.pool.count;
    signal(SIGABRT, show_input);
    signal(SIGALRM, show_input);
    try_all((time_t)strtoull(arguments[1], NULL, 10));
    bool tried = run.taken > 0 && run.taken < run.inputs && run.pictures > 0 && run.netlists > 0;
    printf("fuzz: %" PRIu64 " inputs, %" PRIu64 " taken, %" PRIu64 " kinds of complaint, %" PRIu64 " pictures, %" PRIu64
           " netlists, seed %" PRIu64 ": %s\n",
           run.inputs, run.taken, run.complaint_kinds, run.pictures, run.netlists, now.seed,
           tried ? "nothing found" : "something was never tried");
    free_all();
    return tried ? 0 : 1;
}
