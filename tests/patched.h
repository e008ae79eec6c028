/* Judging a patch, applying it and the patched scan held to the independent reading. Buffers begin or end at a guard page, by turns; every byte of every room and every lent byte is compared. */
#ifndef PATCHED_H
#define PATCHED_H

#include <stddef.h>
#include <stdint.h>

#include "patches.h"
#include "support.h"

/* What is lent, and what the last accepted patch made of its image. */
extern uint8_t table[LONGEST_TABLE], image[LONGEST_IMAGE], defaults[1024], patch[LONGEST_PATCH], applied[LONGEST_IMAGE];

/* How many cases agree, how often each number was answered, how many patches were accepted, and how many scans agree with their reports and hops; in how many of these a scan of the image without the patch takes other hops. */
extern uint64_t cases, given[29], accepted, scans, reported, hops_counted, other_hops;

/* Makes the buffers and seeds the source of numbers. */
void begin_patched(uint64_t from);

/* Judges the patch against the image, applies it in some room and scans with it, from some state, a payload in some room: each as the reading does. Where it is refused all three answer that number, and nothing else, and no room is touched.
 * Answers the number. */
uint32_t agrees(const uint8_t *lent_image, size_t length, const uint8_t *lent_patch, size_t patch_length);

/* The same, and it is this number. */
void answers(size_t length, size_t patch_length, uint32_t number, const char *sentence);

/* The patch is accepted: it is applied in rooms around the result's length, what it makes is accepted, has the image's edition, classes, start and labels, and goes to the other edition and back; the patched scan, from every state of small
 * images and from n, is the archive's scan of what it makes in all numbers and every byte of the room. Leaves that in `applied`; answers its length. */
size_t applies(size_t length, size_t patch_length);

/* An image at random of n states and k classes: of either edition, with a list of defaults that may hold some that are not worth their hops, or compacted in one of the orders. Answers its length; its table is left in `table`. */
size_t some_image(uint32_t n, uint32_t k);

/* A patch for the image, to a target that is left in `target`: some rows of its table and some of its defaults are others, and some states may be listed as they were. It is left in `listing` and in `patch`; answers its length, or 0 where more
 * states differ than a patch may list. */
size_t some_patch(size_t length);

extern uint8_t target[LONGEST_IMAGE];
extern size_t target_length;
extern parts listing;

/* Says how many cases agree, and with which answers. */
void say_patched(const char *name);

#endif
