/*
 * A command for the bench: turns text into a netlist, hands it to the library, and puts what the
 * library answers into words, tables and a picture. It judges nothing that the library judges, and
 * every slack, increment and bound that it shows is one that a call wrote.
 */
#include <stdio.h>
#include <string.h>

#include "commands.h"

static enum status say(const char *words)
{
    return fputs(words, stdout) < 0 || fflush(stdout) != 0 ? TROUBLE : DONE;
}

/* What the command line asks for does not go together, if it does not. */
static enum status check_options(const struct command *command, const struct options *options)
{
    const char *stray = not_allowed(options, command->allowed | OUTPUT | COLOR);
    if (options->file_count < command->least_files || options->file_count > command->most_files) {
        return usage("%s takes %s", command->name,
                     command->least_files == 2   ? "a circuit and a result"
                     : command->most_files == 2 ? "a circuit, and perhaps a result"
                                                : "one circuit");
    }
    if (stray != NULL) {
        return usage("%s does not go with %s", stray, command->name);
    }
    if (options->file_count == 2 && (options->given & MODE) != 0) {
        return usage("the result has a mode already: give --mode or a result");
    }
    if ((options->given & RESULT) != 0 && (options->given & FORMAT) != 0) {
        return usage("--result writes no table: give --format or --result");
    }
    if (options->file_count == 2 && strcmp(options->files[0], "-") == 0 && strcmp(options->files[1], "-") == 0) {
        return usage("only one of two files can be standard input");
    }
    return DONE;
}

static enum status run(struct job *job)
{
    const struct command *command = find_command(job->options.command);
    if (command == NULL) {
        return usage("unknown command %s", job->options.command);
    }
    enum status status = check_options(command, &job->options);
    if (status == DONE) {
        job->report.to = stderr;
        job->report.colour = job->options.colour;
        status = load(job);
    }
    status = status == DONE ? command->run(job) : status;
    if (status == REFUSED) {
        count_the_rest(&job->report);
    }
    return status;
}

/* Asked for anywhere on the line, these come before all else. */
static const char *asked_words(char **arguments)
{
    for (int at = 1; arguments[at] != NULL && strcmp(arguments[at], "--") != 0; at++) {
        if (strcmp(arguments[at], "-h") == 0 || strcmp(arguments[at], "--help") == 0) {
            return help;
        }
        if (strcmp(arguments[at], "-V") == 0 || strcmp(arguments[at], "--version") == 0) {
            return "hozbantir " HOZBANTIR_VERSION ", text form 1\n";
        }
    }
    return NULL;
}

int main(int count, char **arguments)
{
    static struct job job = {.options.mode = HOZBANTIR_EVEN};
    const char *words = count == 0 ? NULL : asked_words(arguments);
    if (words != NULL) {
        return (int)say(words);
    }
    if (count < 2) {
        fputs(help, stderr);
        return (int)TROUBLE;
    }
    enum status status = read_options(arguments, &job.options);
    if (status == DONE) {
        status = run(&job);
    }
    free_job(&job);
    return (int)status;
}
