/* Which ways a run took through the C that is built with trace-pc: the command and the reading of the paper. The archive is not built so; what it answered counts in its place. */
#ifndef COVERAGE_H
#define COVERAGE_H

#include <stdint.h>

/* Counts an answer: of which operation, which number, and how long or how many as a power of two. */
void coverage_answer(uint32_t operation, uint32_t number, uint32_t size);

/* Whether the run since the last call took a way, or took one as often, as none before; the counters begin anew. */
int coverage_fresh(void);

/* A bit for each number that an operation ever answered. */
uint32_t coverage_answers(uint32_t operation);

/* How many counters were ever met. */
uint32_t coverage_met(void);

#endif
