#define _POSIX_C_SOURCE 200809L

#include "files.h"

#include <errno.h>
#include <stdio.h>
#include <string.h>
#include <sys/stat.h>
#include <unistd.h>

/* The greatest circuit as text, with names of full length, has not half a megabyte. */
enum { MOST_BYTES = 16 << 20, PIECE = 1 << 16 };

static enum status trouble(const char *name, const char *why)
{
    fprintf(stderr, "hozbantir: %s: %s\n", name, why);
    return TROUBLE;
}

enum status read_file(const char *name, struct bytes *to)
{
    FILE *file = strcmp(name, "-") == 0 ? stdin : fopen(name, "rb");
    if (file == NULL) {
        return trouble(name, strerror(errno));
    }
    size_t got = 1;
    while (got > 0 && to->length <= MOST_BYTES) {
        to->at = grown(to->at, &to->room, to->length + PIECE, 1);
        got = fread(to->at + to->length, 1, PIECE, file);
        to->length += got;
    }
    int error = ferror(file) != 0 ? errno : 0;
    if (file != stdin) {
        fclose(file);
    }
    if (error != 0) {
        return trouble(name, strerror(error));
    }
    return to->length > MOST_BYTES ? trouble(name, "longer than 16 MiB, which no circuit is") : DONE;
}

/* Whether the output would go over a file that was read: a text would be lost by a slip. */
static bool is_read_too(const struct options *options)
{
    struct stat output, file;
    bool same = false;
    for (size_t at = 0; at < options->file_count && stat(options->output, &output) == 0; at++) {
        same = same || (stat(options->files[at], &file) == 0 && S_ISREG(file.st_mode) && file.st_dev == output.st_dev
                        && file.st_ino == output.st_ino);
    }
    return same;
}

/* A file that could not be written whole is worth nothing, and is taken away again; a device is not. */
static void take_away(FILE *file, const char *name)
{
    struct stat status;
    if (fstat(fileno(file), &status) == 0 && S_ISREG(status.st_mode)) {
        remove(name);
    }
}

static enum status write_to(FILE *file, const char *name, const struct bytes *out)
{
    if (fwrite(out->at, 1, out->length, file) == out->length && fflush(file) == 0) {
        return DONE;
    }
    return trouble(name, strerror(errno));
}

enum status write_file(const struct options *options, const struct bytes *out, bool is_text)
{
    if (options->output == NULL) {
        return !is_text && isatty(STDOUT_FILENO) ? usage("this is no text for a terminal: give --output FILE")
                                                 : write_to(stdout, "standard output", out);
    }
    if (is_read_too(options)) {
        return trouble(options->output, "is read by this command, and would be written over");
    }
    FILE *file = fopen(options->output, "wb");
    if (file == NULL) {
        return trouble(options->output, strerror(errno));
    }
    enum status status = write_to(file, options->output, out);
    if (status != DONE) {
        take_away(file, options->output);
    }
    return fclose(file) == 0 || status != DONE ? status : trouble(options->output, strerror(errno));
}
