#define _POSIX_C_SOURCE 200809L

#include "options.h"

#include <stdarg.h>
#include <stdio.h>
#include <stdlib.h>
#include <string.h>
#include <unistd.h>

#include "hozbantir.h"

const char help[] =
    "usage: hozbantir COMMAND [OPTION].. CIRCUIT [RESULT]\n"
    "  check   CIRCUIT           is the circuit sound, and in time?\n"
    "  slacks  CIRCUIT           the slack of each component at base delays\n"
    "  budget  CIRCUIT           share the slack out: increments and bounds\n"
    "  bounds  CIRCUIT RESULT    the same, read back from a result file\n"
    "  draw    CIRCUIT [RESULT]  a picture (SVG); bounds with RESULT or --mode\n"
    "  pack    CIRCUIT           the netlist file for the contractor\n"
    "  unpack  CIRCUIT           the circuit as text, in columns\n"
    "options:\n"
    "  -m, --mode even|plain     how to share the slack; budget is even by default\n"
    "  -f, --format table|tsv    for people, or for programs: tabs, one head line\n"
    "  -w, --worst N             slacks: the N worst; draw: about N components\n"
    "  -b, --result              budget: write a result file, not a table\n"
    "      --unjudged            pack: write it even if the library refuses it\n"
    "  -o, --output FILE         write there, not to standard output\n"
    "      --color WHEN          auto, always or never\n"
    "  -h, --help; -V, --version\n"
    "CIRCUIT is a text or a netlist file, - is standard input. A text has a line\n"
    "for each component, and all its numbers are whole picoseconds:\n"
    "  input   a    at 0                    # arrives at 0 ps\n"
    "  gate    g    delay 3  from a         # is fed by a\n"
    "  output  out  delay 2  by 20  from g  # is needed by 20 ps\n"
    "exit: 0 done, 1 refused or late, 2 could not be run\n";

enum status usage(const char *format, ...)
{
    va_list words;
    va_start(words, format);
    fputs("hozbantir: ", stderr);
    vfprintf(stderr, format, words);
    fputs("\ntry `hozbantir --help`\n", stderr);
    va_end(words);
    return TROUBLE;
}

static bool take_mode(struct options *options, const char *value)
{
    options->mode = strcmp(value, "plain") == 0 ? HOZBANTIR_PLAIN : HOZBANTIR_EVEN;
    return strcmp(value, "plain") == 0 || strcmp(value, "even") == 0;
}

static bool take_format(struct options *options, const char *value)
{
    options->tsv = strcmp(value, "tsv") == 0;
    return options->tsv || strcmp(value, "table") == 0;
}

static bool take_worst(struct options *options, const char *value)
{
    size_t digits = strspn(value, "0123456789");
    options->worst = digits <= 6 ? (size_t)strtoul(value, NULL, 10) : 0;
    return options->worst > 0 && value[digits] == '\0';
}

static bool take_output(struct options *options, const char *value)
{
    options->output = value;
    return value[0] != '\0';
}

static bool take_color(struct options *options, const char *value)
{
    options->colour = strcmp(value, "always") == 0 || (options->colour && strcmp(value, "auto") == 0);
    return options->colour || strcmp(value, "never") == 0 || strcmp(value, "auto") == 0;
}

static const struct option {
    const char *brief, *full;
    const char *values; /* NULL: it stands alone */
    unsigned bit;
    bool (*take)(struct options *options, const char *value);
} known[] = {
    {"-m", "--mode", "even or plain", MODE, take_mode},
    {"-f", "--format", "table or tsv", FORMAT, take_format},
    {"-w", "--worst", "a number from 1 to 999999", WORST, take_worst},
    {"-o", "--output", "a file", OUTPUT, take_output},
    {NULL, "--color", "auto, always or never", COLOR, take_color},
    {"-b", "--result", NULL, RESULT, NULL},
    {NULL, "--unjudged", NULL, UNJUDGED, NULL},
};
enum { KNOWN = sizeof known / sizeof *known };

/* The option that an argument is, and what of the argument is its value already; NULL if it is none. */
static const struct option *find_option(const char *argument, const char **value)
{
    for (size_t at = 0; at < KNOWN; at++) {
        size_t length = strlen(known[at].full);
        bool full = strncmp(argument, known[at].full, length) == 0;
        bool brief = known[at].brief != NULL && strncmp(argument, known[at].brief, 2) == 0;
        const char *rest = full ? argument + length : argument + 2;
        *value = full && *rest == '=' ? rest + 1 : !full && *rest != '\0' ? rest : NULL;
        if ((full || brief) && (*rest == '\0' || (known[at].values != NULL && *value != NULL))) {
            return &known[at];
        }
    }
    return NULL;
}

/* Takes the option at a place, with its value from there or from the next. */
static enum status take_option(char **arguments, int *at, struct options *options)
{
    const char *value;
    const struct option *option = find_option(arguments[*at], &value);
    if (option == NULL) {
        return usage("unknown option %s", arguments[*at]);
    }
    options->given |= option->bit;
    if (option->values == NULL) {
        return DONE;
    }
    if (value == NULL) {
        value = arguments[*at + 1];
        *at += value != NULL;
    }
    return value != NULL && option->take(options, value) ? DONE : usage("%s is %s", option->full, option->values);
}

static enum status take_word(char *word, struct options *options)
{
    if (options->command == NULL) {
        options->command = word;
    } else if (options->file_count < 2) {
        options->files[options->file_count++] = word;
    } else {
        return usage("too many files: %s", word);
    }
    return DONE;
}

/* Complaints go to standard error, so that is what has to be a terminal. */
static bool wants_colour(void)
{
    const char *terminal = getenv("TERM");
    return isatty(STDERR_FILENO) && getenv("NO_COLOR") == NULL && terminal != NULL && strcmp(terminal, "dumb") != 0;
}

enum status read_options(char **arguments, struct options *options)
{
    bool only_words = false;
    enum status status = DONE;
    options->colour = wants_colour();
    for (int at = 1; arguments[at] != NULL && status == DONE; at++) {
        if (only_words || arguments[at][0] != '-' || arguments[at][1] == '\0') {
            status = take_word(arguments[at], options);
        } else if (strcmp(arguments[at], "--") == 0) {
            only_words = true;
        } else {
            status = take_option(arguments, &at, options);
        }
    }
    return status == DONE && options->command == NULL ? usage("no command is given") : status;
}

const char *not_allowed(const struct options *options, unsigned allowed)
{
    size_t at = 0;
    while (at < KNOWN && (options->given & known[at].bit & ~allowed) == 0) {
        at++;
    }
    return at < KNOWN ? known[at].full : NULL;
}
