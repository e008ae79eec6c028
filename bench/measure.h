/* How an operation is measured: its instructions when the program runs under callgrind, else its time and its stack. */
#ifndef MEASURE_H
#define MEASURE_H

#include <stddef.h>

typedef void action(void);

/* Whether the program runs under callgrind, where times say nothing. */
int counting(void);

/* Does the action once. Under callgrind its instructions, all that it calls among them, are written out under the name. */
void counted(const char *name, action *act);

/* The median time of each of the actions in milliseconds, each done many times and in turn. */
void timed(action *const *acts, size_t number, double *milliseconds);

/* The bytes of stack that an action takes. */
size_t stack_of(action *act);

#endif
