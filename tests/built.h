/* Write, expand, compact, rewrite, the moves, strings and reduce held to the independent reading. Buffers begin or end at a guard page, by turns; every byte of every room and every lent byte is
 * compared. */
#ifndef BUILT_H
#define BUILT_H

#include <stddef.h>
#include <stdint.h>

#include "support.h"

enum operation { WRITE, EXPAND, COMPACT, FORWARD, BACK, REWRITE, STRINGS, REDUCE };

/* What is lent to the operations, and the room as the reading left it in the last case. */
extern uint8_t table[LONGEST_TABLE], image[LONGEST_IMAGE], defaults[1100], wanted[LONGEST_IMAGE + 64];

/* The order in which compact is run now. */
extern uint32_t order;

/* How many cases agree, and how often each number was answered. */
extern uint64_t cases, given[29];

/* Makes the buffers and seeds the source of numbers. */
void begin(uint64_t from);

/* Runs an operation with a room of 170s and compares the answer and every byte; a result is of its input's edition, or of the other where it was moved, or of edition 2 where it was made of a word list, and one that is an image is shown to a
 * loader of the first edition, goes there and back and is rewritten. Answers the result's length. */
size_t compared(enum operation o, const uint8_t *input, size_t length, size_t list_length, uint32_t bound, size_t room_length);

/* The same with rooms around the result's length. */
size_t with_rooms(enum operation o, const uint8_t *input, size_t length, size_t list_length, uint32_t bound);

/* A table of edition 1 with these rows, start state 0, no labels, and a byte behind 96 for each class above 0. */
void rows_of(uint32_t n, uint32_t k, const uint16_t *rows);

/* Holds the image that the reading left to its numbers, and its defaults to a list. */
void expect_image(uint32_t length, uint32_t entries, uint32_t depth, uint32_t worst, const char *name);
void expect_defaults(const uint16_t *falls, const char *name);

/* Says how many cases agree, and with which answers. */
void say(const char *name);

#endif
