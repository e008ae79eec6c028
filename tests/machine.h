/* Tables before they are written: machines whose states have one of a few label lists, at random or each state many times over. */
#ifndef MACHINE_H
#define MACHINE_H

#include <stddef.h>
#include <stdint.h>

enum { STATES = 512, CLASSES = 256, KINDS = 6 };

/* The start state, the next states, and of each state which of the label lists it has; 0 is the empty one. */
typedef struct {
    uint32_t n, k, start, kind[STATES], next[STATES][CLASSES];
} machine;

/* Writes the machine as the table of built.h, in an edition; answers its length. */
size_t put_table(const machine *m, uint32_t edition);

/* A machine at random: few kinds of labels, rows that are alike in some cases, so that states become equal. */
void make_machine(machine *m, uint32_t n, uint32_t k);

/* Each state of a machine so many times over, in an order at random; a next state is any of those that stand for the right one. */
void multiply(machine *m, const machine *from, uint32_t times);

#endif
