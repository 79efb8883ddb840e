/* Whole files in, whole files out. What cannot be read or written is said on standard error. */
#ifndef FILES_H
#define FILES_H

#include "bytes.h"
#include "options.h"

/* `-` is standard input. */
enum status read_file(const char *name, struct bytes *to);

/* To the file that the options name, or to standard output; bytes that are no text never to a terminal. */
enum status write_file(const struct options *options, const struct bytes *out, bool is_text);

#endif
