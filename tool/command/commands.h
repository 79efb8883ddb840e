/* The commands. Each is given a circuit that the library has taken, and writes at the very end. */
#ifndef COMMANDS_H
#define COMMANDS_H

#include "job.h"

struct command {
    const char *name;
    enum status (*run)(struct job *job);
    size_t least_files, most_files;
    unsigned allowed; /* options that go with it, beside those that go with all */
};

/* NULL if there is none of that name. */
const struct command *find_command(const char *name);

#endif
