/* What the proved code is measured against: the same work in C, tuned by hand. Each operation answers as the archive's does, on acceptance and refusal
 * alike; only scan, walk, rewrite, reduce, the moves and all that has a patch take what was judged before. An operation of edition 1 knows that edition alone, so that it is compiled as it was before there was another; where edition 2
 * asks for other code it has a function of its own, `plain_second_...`. */
#ifndef PLAIN_H
#define PLAIN_H

#include <stddef.h>
#include <stdint.h>
#include <string.h>

#include "kamordast.h"

static inline uint16_t plain_number16(const uint8_t *at) {
    uint16_t x;
    memcpy(&x, at, 2);
    return x;
}

static inline uint32_t plain_number32(const uint8_t *at) {
    uint32_t x;
    memcpy(&x, at, 4);
    return x;
}

static inline void plain_put16(uint8_t *at, uint32_t x) { memcpy(at, &(uint16_t){(uint16_t)x}, 2); }

static inline void plain_put32(uint8_t *at, uint32_t x) { memcpy(at, &x, 4); }

/* A body that is compiled for each edition by itself: whether it is the second is a constant there. */
#define EACH_EDITION static inline __attribute__((always_inline))

/* The states that a first word says, in either edition. */
static inline size_t plain_states(const uint8_t *front) { return plain_number16(front) & 32767; }

/* How a file that is compiled for each edition reads n (plain_second_forest.c). */
#ifndef PLAIN_N
#define PLAIN_N plain_number16
#endif

/* Parts that the operations share: ground 7, and the check word of RFC 1071. */
int plain_classes_bad(const uint8_t *classes, size_t k);
uint16_t plain_check_word(const uint8_t *bytes, size_t length);

/* Of edition 2: how many labels the counts say, or -1 where one is above 16; whether a label behind them is 0 or does not rise; where the labels of each state begin, behind the
 * first, and of how many states there are the end. */
long plain_labels(const uint8_t *counts, size_t n);
int plain_labels_bad(const uint8_t *counts, size_t n);
void plain_places(const uint8_t *counts, size_t n, uint16_t *places);

/* Puts the reports of a byte that lands on labels; answers the place behind them. */
static inline uint8_t *plain_put_reports(uint8_t *report, size_t offset, const uint8_t *label, size_t count) {
    for (; count; count--, report += 6, label += 2) {
        plain_put32(report, (uint32_t)offset);
        memcpy(report + 4, label, 2);
    }
    return report;
}

/* The states, each after its default. */
typedef struct {
    uint16_t order[512];    /* the state at each place */
    uint16_t fallback[512]; /* the place of its default; n for a root */
    uint32_t depth;         /* the longest chain */
} plain_chains;

/* Fills the chains and answers 1; 0 where a chain returns to a state. */
int plain_order(const uint16_t *defaults, size_t n, plain_chains *chains);

/* Ground 12 where some entry is what its default's chain gives; else 0 and the worst. Of each state it is said where its entries begin and end. */
uint32_t plain_sweep(const uint8_t *const *begins, const uint8_t *const *ends, const plain_chains *chains, size_t n, size_t k, uint32_t *worst);

/* The defaults of an accepted table in an order: of the bounded greedy forest, or in order 3 toward the start. `seeking` tells how the pairs of one weight are
 * found in order 0 (plain_forest.c), and in order 3 that only the pairs that can count are weighed (plain_toward.c). */
void plain_defaults(const uint8_t *table, size_t length, uint32_t order, uint32_t bound, int seeking, uint16_t *defaults);
void plain_second_defaults(const uint8_t *table, size_t length, uint32_t order, uint32_t bound, int seeking, uint16_t *defaults);

/* The defaults of order 3, from the weights of all pairs, the smaller state's row first; where they are NULL the shared classes are counted for the pairs of two
 * levels only. */
void plain_toward(const uint8_t *table, size_t length, const uint8_t *weights, uint16_t *defaults);

/* The image of an accepted table with defaults, or refusal 16. */
kamordast_built plain_image(const uint8_t *table, size_t length, const uint16_t *defaults, const plain_chains *chains, uint8_t *room, size_t room_length);
kamordast_built plain_second_image(const uint8_t *table, size_t length, const uint16_t *defaults, const plain_chains *chains, uint8_t *room, size_t room_length);

/* The same of defaults that came in a list: 25 where one shares fewer than two classes with its state, or refusal 16. */
kamordast_built plain_listed_image(const uint8_t *table, size_t length, const uint16_t *defaults, const plain_chains *chains, uint8_t *room, size_t room_length);
kamordast_built plain_second_listed_image(const uint8_t *table, size_t length, const uint16_t *defaults, const plain_chains *chains, uint8_t *room, size_t room_length);

uint32_t plain_judge_table(const uint8_t *table, size_t length);
uint32_t plain_judge_image(const uint8_t *image, size_t length);
kamordast_built plain_compact(const uint8_t *table, size_t length, uint32_t order, uint32_t bound, int seeking, uint8_t *room, size_t room_length);
kamordast_built plain_write(const uint8_t *table, size_t length, const uint8_t *list, size_t list_length, uint8_t *room, size_t room_length);
kamordast_built plain_expand(const uint8_t *image, size_t length, uint8_t *room, size_t room_length);

uint32_t plain_second_judge_table(const uint8_t *table, size_t length);
uint32_t plain_second_judge_image(const uint8_t *image, size_t length);
kamordast_built plain_second_compact(const uint8_t *table, size_t length, uint32_t order, uint32_t bound, int seeking, uint8_t *room, size_t room_length);
kamordast_built plain_second_write(const uint8_t *table, size_t length, const uint8_t *list, size_t list_length, uint8_t *room, size_t room_length);
kamordast_built plain_second_expand(const uint8_t *image, size_t length, uint8_t *room, size_t room_length);

/* An accepted image of edition 1 into edition 2, and of edition 2 back: each takes both, to refuse one of them. */
kamordast_built plain_forward(const uint8_t *image, size_t length, uint8_t *room, size_t room_length);
kamordast_built plain_back(const uint8_t *image, size_t length, uint8_t *room, size_t room_length);

/* An accepted image of either edition without the defaults that share fewer than two classes with their states. */
kamordast_built plain_rewrite(const uint8_t *image, size_t length, uint8_t *room, size_t room_length);

/* The table of a word list. `linking` tells how labels and 19 are found (plain_strings.c). */
kamordast_built plain_strings(const uint8_t *list, size_t length, int linking, uint8_t *room, size_t room_length);

/* An accepted table of either edition without the states that no payload reaches or tells apart from another. */
kamordast_built plain_reduce(const uint8_t *table, size_t length, uint8_t *room, size_t room_length);

/* A patch against an accepted image of either edition: 22 to 24, 8 to 13. */
uint32_t plain_judge_patch(const uint8_t *image, size_t length, const uint8_t *patch, size_t patch_length);

/* An accepted image with an accepted patch: applied, or refusal 16; and the walk of a payload through both. */
kamordast_built plain_apply(const uint8_t *image, size_t length, const uint8_t *patch, size_t patch_length, uint8_t *room, size_t room_length);
kamordast_scanned plain_scan_patched(const uint8_t *image, size_t length, const uint8_t *patch, size_t patch_length, uint32_t state, const uint8_t *payload, size_t bytes, uint8_t *room, size_t room_length);
kamordast_scanned plain_second_scan_patched(const uint8_t *image, size_t length, const uint8_t *patch, size_t patch_length, uint32_t state, const uint8_t *payload, size_t bytes, uint8_t *room, size_t room_length);

/* The walk of a payload through an accepted image. */
kamordast_scanned plain_scan(const uint8_t *image, size_t length, uint32_t state, const uint8_t *payload, size_t bytes, uint8_t *room, size_t room_length);
kamordast_scanned plain_second_scan(const uint8_t *image, size_t length, uint32_t state, const uint8_t *payload, size_t bytes, uint8_t *room, size_t room_length);

/* The walk of a payload through an accepted table: what is paid without compacting, and what the archive's walk is held to. */
kamordast_scanned plain_walk(const uint8_t *table, size_t length, uint32_t state, const uint8_t *payload, size_t bytes, uint8_t *room, size_t room_length);
kamordast_scanned plain_second_walk(const uint8_t *table, size_t length, uint32_t state, const uint8_t *payload, size_t bytes, uint8_t *room, size_t room_length);

#endif
