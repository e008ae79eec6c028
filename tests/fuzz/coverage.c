#include "coverage.h"

#include <string.h>

enum { COUNTERS = 1 << 15 };

/* The counters of this run, and of all runs a bit for each of eight ranges of counts. */
static uint8_t counters[COUNTERS], seen[COUNTERS];
static uint32_t before;

/* Of each operation a bit for each number that it answered. */
enum { MOST_OPERATIONS = 64 };
static uint32_t answered[MOST_OPERATIONS];

static void count(uint32_t place) {
    uint8_t *counter = &counters[place % COUNTERS];
    *counter = (uint8_t)(*counter + (*counter < 255));
}

/* Called at each branch by what is built with trace-pc. A way is a branch and the one before it; its place does not depend on where the program was loaded. */
void __sanitizer_cov_trace_pc(void);
void __sanitizer_cov_trace_pc(void) {
    uint32_t here = (uint32_t)((uintptr_t)__builtin_return_address(0) - (uintptr_t)&coverage_fresh) * 2654435761u >> 12;
    count(here ^ before);
    before = here >> 1;
}

void coverage_answer(uint32_t operation, uint32_t number, uint32_t size) {
    uint32_t power = 0;
    if (operation < MOST_OPERATIONS && number < 32) answered[operation] |= 1u << number;
    while (size >> power) power++;
    count(((operation * 40 + number) * 40 + power) * 2246822519u >> 14);
}

/* The range of a count: 1, 2, 3, 4 to 7, 8 to 15, 16 to 31, 32 to 127, more. */
static uint8_t range_of(uint8_t times) {
    static const uint8_t from[] = {1, 2, 3, 4, 8, 16, 32, 128};
    int range = 7;
    while (times < from[range]) range--;
    return (uint8_t)(1 << range);
}

int coverage_fresh(void) {
    int fresh = 0;
    for (uint32_t block = 0; block < COUNTERS; block += 8) {
        uint64_t any;
        memcpy(&any, counters + block, 8);
        for (uint32_t i = block; any && i < block + 8; i++) {
            if (!counters[i] || (seen[i] & range_of(counters[i]))) continue;
            seen[i] |= range_of(counters[i]);
            fresh = 1;
        }
    }
    memset(counters, 0, COUNTERS);
    before = 0;
    return fresh;
}

uint32_t coverage_answers(uint32_t operation) { return answered[operation]; }

uint32_t coverage_met(void) {
    uint32_t met = 0;
    for (uint32_t i = 0; i < COUNTERS; i++) met += seen[i] != 0;
    return met;
}
