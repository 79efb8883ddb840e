/*
 * Looks at a circuit on standard input before there is a library to judge it: complains of what the
 * text's reader complains of, and ends with 1 if there is something. A netlist file is left to the
 * library.
 *
 *   look NAME <FILE
 */
#include "text.h"

#include <stdlib.h>

int main(int count, char **arguments)
{
    struct bytes file = {0};
    for (size_t got = 1; got > 0; file.length += got) {
        file.at = grown(file.at, &file.room, file.length + BUFSIZ, 1);
        got = fread(file.at + file.length, 1, BUFSIZ, stdin);
    }
    struct circuit circuit = {0};
    struct report report = {.file = count > 1 ? arguments[1] : "stdin", .to = stderr};
    report.text = (const char *)file.at;
    report.length = file.length;
    if (is_text(&file)) {
        read_text(&report, &circuit);
        count_the_rest(&report);
    }
    free_circuit(&circuit);
    free(file.at);
    return report.complaints > 0;
}
