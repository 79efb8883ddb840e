/* The command line as it was given. */
#ifndef OPTIONS_H
#define OPTIONS_H

#include <stdbool.h>
#include <stddef.h>
#include <stdint.h>

/* As exit codes: done; refused, or late; could not be run. */
enum status { DONE = 0, REFUSED = 1, TROUBLE = 2 };

/* Options, as bits of what was given. */
enum { MODE = 1, FORMAT = 2, WORST = 4, RESULT = 8, UNJUDGED = 16, OUTPUT = 32, COLOR = 64 };

struct options {
    const char *command, *files[2], *output;
    size_t file_count, worst;
    unsigned given;
    uint32_t mode;
    bool tsv, colour;
};

extern const char help[];

/* Says on standard error what is wrong with the command line. */
enum status usage(const char *format, ...);

enum status read_options(char **arguments, struct options *options);

/* The long name of one of the given options that are not among the allowed; NULL if there is none. */
const char *not_allowed(const struct options *options, unsigned allowed);

#endif
