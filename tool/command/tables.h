/* What the library said of a circuit, for people in columns or for programs with tabs. */
#ifndef TABLES_H
#define TABLES_H

#include "job.h"

/* In time or late, and by how much. */
void say_least_slack(struct job *job);

/* In the order of the circuit, or only so many of the worst, worst first. */
void slack_table(struct job *job);

/* Base delay, increment and bound of each component that the result has a bound for. */
void bound_table(struct job *job);

/* Mode, share and rounds of a result. */
void say_summary(const struct job *job, struct bytes *out);

#endif
