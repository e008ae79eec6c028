/* What one run of the fuzzer is made of: an operation, numbers and one piece of bytes of each kind. An operation uses some of the pieces. */
#ifndef INPUT_H
#define INPUT_H

#include <stddef.h>
#include <stdint.h>

enum { TABLE, IMAGE, PATCH, DEFAULTS, LIST, TEXT, PAYLOAD, KINDS };

/* The kinds by the ends of their names in tests/corpus. */
extern const char *const kind_names[KINDS];

enum { MOST_BYTES = 1600 };

typedef struct {
    size_t length;
    uint8_t bytes[MOST_BYTES];
} piece;

typedef struct {
    uint32_t operation, state, order, bound, room;
    piece of[KINDS];
} input;

/* What is run: a name for reports, which kinds it uses, a bit for each, and the run, which ends the test where something is wrong. */
typedef struct {
    const char *name;
    uint32_t uses;
    void (*run)(const input *x);
} operation;

extern const operation operations[];
extern const uint32_t operation_count;

/* Alters an input in what its operation uses; takes some of it from another. */
void mutate(input *x, const input *other, uint32_t uses);

/* Runs the command, or the loader, on files of the pieces in this folder. `end_command` gives back what it took of the program's, wherever it was stopped. */
void run_command(const input *x);
void end_command(void);
extern const uint32_t command_count;

/* Says what is wrong with the input at hand, keeps its pieces as files, and ends with status 1. */
void found(const char *sentence);

#endif
