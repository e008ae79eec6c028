/* What the tests share: a seeded source of numbers, tables of both editions and lists of defaults at random, and buffers between guard pages. */
#ifndef SUPPORT_H
#define SUPPORT_H

#include <stddef.h>
#include <stdint.h>

enum {
    LONGEST_TABLE = 262 + 2 * 512 + 2 * 16 * 512 + 2 * 512 * 256,
    LONGEST_IMAGE = 280 + 6 * 512 + 2 * 16 * 512 + 4 * 512 * 256,
};

/* A number below `below`, from a source that gives the same numbers for the same seed. */
void seed(uint64_t from);
uint32_t below(uint32_t below);

uint32_t number16(const uint8_t *b, size_t at);
uint32_t number32(const uint8_t *b, size_t at);
void set16(uint8_t *b, size_t at, uint32_t x);
void set32(uint8_t *b, size_t at, uint32_t x);

/* The edition and the states that a table's or an image's first word says. */
uint32_t edition_in(const uint8_t *b);
uint32_t states_in(const uint8_t *b);

/* Where the rows of a sound table begin, and the records of a sound image: behind the labels. */
size_t rows_in(const uint8_t *table);
size_t records_in(const uint8_t *image);

/* Sets the check word at the end of an image anew, so that damage before it is seen by the grounds behind 5. */
void mend_check_word(uint8_t *image, size_t length);

/* A table of edition 1, of n states and k classes, whose rows are alike in `alike` of 256 cases; answers its length. */
size_t make_table(uint8_t *table, uint32_t n, uint32_t k, uint32_t alike);

/* A table in which payloads from the start reach at most `reached` states, in levels of at most `wide`; one byte alone leads from a level to the next. A row is like
 * one of a state no farther from the start in `alike` of 256 cases. Answers the table's length. */
size_t make_levels(uint8_t *table, uint32_t n, uint32_t k, uint32_t alike, uint32_t reached, uint32_t wide);

/* The stairs: 512 states, each a level of its own. Byte 0 leads one state up, byte 11 from each state to state 1, and in order 3 each state falls to the one
 * before it and to no other, so that byte 11 costs a hop for each level. Answers the table's length. */
size_t make_stairs(uint8_t *table);

/* Makes of a table of edition 1 one of edition 2 with lists of up to `most` labels each at random in place of its labels; answers its length. */
size_t make_second(uint8_t *table, size_t length, uint32_t most);

/* Leaves a table of edition 1 as it is, or makes it one of edition 2: most lists are short, some have 16 labels, in some tables all or none. Answers its length. */
size_t either_edition(uint8_t *table, size_t length);

/* A list of defaults without a circle: a state has one in `often` of 256 cases. */
void make_defaults(uint8_t *defaults, uint32_t n, uint32_t often);

/* Takes out of a list of defaults those that share fewer than two classes with their states, by the rows of a sound table; answers how many. */
uint32_t leave_worthy(uint8_t *defaults, const uint8_t *table);

/* How many states of a sound image have such a default: each of them stores all classes or all but one. */
uint32_t unworthy_in(const uint8_t *image);

/* Damage where the grounds look, in a copy of an accepted image, most times with the check word mended so that the later grounds are reached. */
void damage_image(uint8_t *copy, const uint8_t *image, size_t length);

/* Bytes between two pages that may not be touched. `at_end` of them stands right before the second page, `at_start` right behind the first. */
typedef struct {
    uint8_t *pages;
    size_t size;
} guarded;

guarded guard(size_t most);
uint8_t *at_end(const guarded *g, size_t length);
uint8_t *at_start(const guarded *g);
/* At the end or at the start, by turns of five. */
uint8_t *at_either(const guarded *g, size_t length, uint64_t turn);

/* Ends the test with the sentence, the case's number and status 1. */
void fail(const char *sentence, uint64_t number);

#endif
