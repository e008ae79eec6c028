/* Patches as numbers, for the tests that make them: what a patch lists, put down as bytes for an image. */
#ifndef PATCHES_H
#define PATCHES_H

#include <stddef.h>
#include <stdint.h>

#include "kamordast.h"

/* One state more than a patch may list, so that this can be tried. */
enum { MOST_LISTED = KAMORDAST_MOST_PATCHED + 1, LONGEST_PATCH = 22 + MOST_LISTED * (6 + 4 * 256) };

/* What a patch gives a state: default, count and entries. */
typedef struct {
    uint32_t state, fallback, count, class[256], next[256];
} listed;

typedef struct {
    uint32_t p, depth, worst;
    listed list[MOST_LISTED];
} parts;

/* Where things stand in a patch that lists p states: a state's number, its record, an entry of all entries. */
static inline size_t number_at(size_t i) { return 10 + 2 * i; }
static inline size_t record_at(size_t p, size_t i) { return 10 + 2 * p + 4 * i; }
static inline size_t entry_at(size_t p, size_t j) { return 10 + 6 * p + 4 * j; }

/* Lists a state as it stands in an accepted image, in its place among those that are listed, or anew where it is listed. Answers what is listed of it. */
listed *list_state(parts *x, const uint8_t *image, uint32_t s);

/* Lists every state that has another record or other entries in the target than in the image, both accepted. Answers how many there are; where they are more than a patch may list the rest is left out. */
uint32_t list_differences(parts *x, const uint8_t *image, const uint8_t *target);

/* Gives the patch the depth and the worst that the image has with it. A chain that returns counts as long as there are states. */
void find_costs(parts *x, const uint8_t *image);

/* The bytes of the patch, made for an image; answers their length. */
size_t put_patch(const parts *x, const uint8_t *image, size_t image_length, uint8_t *patch);

/* Sets the distance back and the length in the trailer anew, and the check word. */
void mend_trailer(uint8_t *patch, size_t length);

#endif
