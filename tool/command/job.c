#include "job.h"

#include <stdlib.h>
#include <string.h>

#include "files.h"
#include "records.h"
#include "refusals.h"
#include "text.h"

static const char *said_name(const char *name)
{
    return strcmp(name, "-") == 0 ? "stdin" : name;
}

/* What the library answered; a refusal is put into words, about one of the files. */
static enum status answered(struct job *job, const char *file, uint64_t answer)
{
    if (HOZBANTIR_NUMBER(answer) == HOZBANTIR_SUCCESS) {
        return DONE;
    }
    struct asked asked = {.circuit = &job->circuit,
                          .netlist = job->netlist.at,
                          .length = job->netlist.length,
                          .result = job->result.at,
                          .result_length = job->result.length,
                          .slacks = job->slacks,
                          .from_text = job->from_text};
    job->report.file = said_name(file);
    explain(&job->report, &asked, answer);
    return REFUSED;
}

static enum status analyse(struct job *job)
{
    uint8_t slacks[HOZBANTIR_MOST_NUMBERS_LENGTH];
    uint64_t answer = hozbantir_analyse(job->netlist.at, job->netlist.length, slacks, sizeof slacks);
    for (uint32_t at = 0; HOZBANTIR_NUMBER(answer) == HOZBANTIR_SUCCESS && at < HOZBANTIR_PLACE(answer); at++) {
        job->slacks[at] = hozbantir_signed_at(slacks, at);
    }
    return answered(job, job->options.files[0], answer);
}

enum status load(struct job *job)
{
    if (read_file(job->options.files[0], &job->file) != DONE) {
        return TROUBLE;
    }
    job->report.file = said_name(job->options.files[0]);
    job->from_text = is_text(&job->file);
    if (job->from_text) {
        job->report.text = (const char *)job->file.at;
        job->report.length = job->file.length;
        if (!read_text(&job->report, &job->circuit)) {
            return REFUSED;
        }
        write_netlist(&job->circuit, &job->netlist);
    } else {
        job->netlist = job->file;
        job->file = (struct bytes){0};
        read_netlist(job->netlist.at, job->netlist.length, &job->circuit);
    }
    return (job->options.given & UNJUDGED) != 0 ? DONE : analyse(job);
}

enum status make_result(struct job *job, uint32_t mode)
{
    job->result.at = grown(job->result.at, &job->result.room, HOZBANTIR_MOST_RESULT_LENGTH, 1);
    uint64_t answer = hozbantir_budget(mode, job->netlist.at, job->netlist.length, job->result.at, job->result.room);
    job->result.length = HOZBANTIR_NUMBER(answer) == HOZBANTIR_SUCCESS ? HOZBANTIR_PLACE(answer) : 0;
    return answered(job, job->options.files[0], answer);
}

enum status read_result(struct job *job)
{
    return read_file(job->options.files[1], &job->result);
}

enum status read_bounds(struct job *job)
{
    uint8_t bounds[HOZBANTIR_MOST_NUMBERS_LENGTH];
    uint64_t answer = hozbantir_read_back(job->netlist.at, job->netlist.length, job->result.at, job->result.length,
                                          bounds, sizeof bounds);
    enum status status = answered(job, job->options.files[job->options.file_count - 1], answer);
    for (uint32_t at = 0; status == DONE && at < HOZBANTIR_PLACE(answer); at++) {
        job->bounds[at] = hozbantir_number_at(bounds, at);
    }
    /* The result was taken, so that its records are a summary and bounds. */
    for (size_t at = HOZBANTIR_RESULT_LENGTH(0); status == DONE && at < job->result.length; at += 13) {
        job->increments[field(job->result.at + at + 3, 2)] = field(job->result.at + at + 9, 4);
    }
    return status;
}

void free_job(struct job *job)
{
    free_circuit(&job->circuit);
    free(job->file.at);
    free(job->netlist.at);
    free(job->result.at);
    free(job->out.at);
}
