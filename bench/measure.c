/* Measuring: client requests to callgrind, medians of times in turn, and a stack painted beforehand. */
#define _GNU_SOURCE
#include "measure.h"

#include <pthread.h>
#include <stdint.h>
#include <stdlib.h>
#include <string.h>
#include <sys/mman.h>
#include <time.h>
#include <valgrind/callgrind.h>

#include "support.h"

enum { STACK = 4 << 20, PAINT = 170, LEAST = 7, MOST = 301, MOST_ACTIONS = 3 };

int counting(void) { return RUNNING_ON_VALGRIND > 0; }

void counted(const char *name, action *act) {
    CALLGRIND_START_INSTRUMENTATION;
    CALLGRIND_ZERO_STATS;
    act();
    CALLGRIND_DUMP_STATS_AT(name);
    CALLGRIND_STOP_INSTRUMENTATION;
}

static double now(void) {
    struct timespec t;
    clock_gettime(CLOCK_MONOTONIC, &t);
    return 1e3 * (double)t.tv_sec + 1e-6 * (double)t.tv_nsec;
}

static int by_size(const void *a, const void *b) {
    double x = *(const double *)a, y = *(const double *)b;
    return (x > y) - (x < y);
}

/* At least LEAST rounds, at most MOST, and no new one after a quarter of a second. */
void timed(action *const *acts, size_t number, double *milliseconds) {
    static double times[MOST_ACTIONS][MOST];
    double begun = now();
    size_t rounds = 0;
    while (rounds < LEAST || (rounds < MOST && now() - begun < 250)) {
        for (size_t a = 0; a < number; a++) {
            double start = now();
            acts[a]();
            times[a][rounds] = now() - start;
        }
        rounds++;
    }
    for (size_t a = 0; a < number; a++) {
        qsort(times[a], rounds, sizeof times[a][0], by_size);
        milliseconds[a] = times[a][rounds / 2];
    }
}

static action *done_there;

static void nothing(void) {}

static void *on_thread(void *x) {
    done_there();
    return x;
}

/* The bytes painted over on a stack of its own, the thread's among them. */
static size_t painted_over(action *act) {
    uint8_t *stack = mmap(NULL, STACK, PROT_READ | PROT_WRITE, MAP_PRIVATE | MAP_ANONYMOUS, -1, 0);
    pthread_attr_t how;
    pthread_t thread;
    size_t left = 0;
    if (stack == MAP_FAILED) fail("no stack", 0);
    memset(stack, PAINT, STACK);
    done_there = act;
    pthread_attr_init(&how);
    pthread_attr_setstack(&how, stack, STACK);
    if (pthread_create(&thread, &how, on_thread, NULL) || pthread_join(thread, NULL)) fail("no thread", 0);
    while (left < STACK && stack[left] == PAINT) left++;
    munmap(stack, STACK);
    return STACK - left;
}

size_t stack_of(action *act) { return painted_over(act) - painted_over(nothing); }
