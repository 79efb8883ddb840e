#include "commands.h"

#include <stdlib.h>
#include <string.h>

#include "files.h"
#include "picture.h"
#include "tables.h"
#include "text.h"

/* So many components are drawn if no other number is given. */
enum { DRAWN = 80 };

/* Whether it is in time the library says: a budget is refused if it is not, in either mode alike. */
static enum status check(struct job *job)
{
    const struct circuit *circuit = &job->circuit;
    if (make_result(job, HOZBANTIR_PLAIN) != DONE) {
        return REFUSED;
    }
    put(&job->out, "%s: %zu component%s, %zu connection%s; ", job->report.file, circuit->count,
        circuit->count == 1 ? "" : "s", circuit->wire_count, circuit->wire_count == 1 ? "" : "s");
    say_least_slack(job);
    return write_file(&job->options, &job->out, true);
}

static enum status slacks(struct job *job)
{
    slack_table(job);
    return write_file(&job->options, &job->out, true);
}

/* Bounds of the result that is given, or of one made in a mode. */
static enum status get_bounds(struct job *job)
{
    enum status status = job->options.file_count == 2 ? read_result(job) : make_result(job, job->options.mode);
    return status == DONE ? read_bounds(job) : status;
}

static enum status budget(struct job *job)
{
    enum status status = get_bounds(job);
    if (status != DONE) {
        return status;
    }
    if ((job->options.given & RESULT) != 0) {
        return write_file(&job->options, &job->result, false);
    }
    bound_table(job);
    return write_file(&job->options, &job->out, true);
}

static const char *last_part(const char *path)
{
    const char *slash = strrchr(path, '/');
    return slash == NULL ? path : slash + 1;
}

static enum status draw_circuit(struct job *job)
{
    bool budgeted = job->options.file_count == 2 || (job->options.given & MODE) != 0;
    const char *file = job->report.file;
    enum status status = budgeted ? get_bounds(job) : DONE;
    if (status != DONE) {
        return status;
    }
    struct bytes below = {0};
    if (budgeted) {
        say_summary(job, &below);
    } else {
        put(&below, "base delays, no budget");
    }
    struct picture picture = {.title = last_part(file),
                              .below = (const char *)below.at,
                              .slacks = job->slacks,
                              .increments = budgeted ? job->increments : NULL,
                              .bounds = budgeted ? job->bounds : NULL,
                              .most = job->options.worst == 0 ? DRAWN : job->options.worst};
    draw(&job->circuit, &picture, &job->out);
    free(below.at);
    return write_file(&job->options, &job->out, true);
}

static enum status pack(struct job *job)
{
    return write_file(&job->options, &job->netlist, false);
}

static enum status unpack(struct job *job)
{
    write_text(&job->circuit, &job->out);
    return write_file(&job->options, &job->out, true);
}

const struct command *find_command(const char *name)
{
    static const struct command commands[] = {
        {"check", check, 1, 1, 0},
        {"slacks", slacks, 1, 1, FORMAT | WORST},
        {"budget", budget, 1, 1, MODE | FORMAT | RESULT},
        {"bounds", budget, 2, 2, FORMAT},
        {"draw", draw_circuit, 1, 2, MODE | WORST},
        {"pack", pack, 1, 1, UNJUDGED},
        {"unpack", unpack, 1, 1, 0},
    };
    size_t at = 0, count = sizeof commands / sizeof *commands;
    while (at < count && strcmp(name, commands[at].name) != 0) {
        at++;
    }
    return at < count ? &commands[at] : NULL;
}
