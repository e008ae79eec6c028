/* An independent reading of the definition paper and the requests, plain and slow: what the proved operations are compared with. It shares no code with them.
 * Tables and images are of either edition, and a result is of its input's, but for the moves, which make the other. */
#ifndef REFERENCE_H
#define REFERENCE_H

#include <stddef.h>
#include <stdint.h>

typedef struct {
    uint32_t refused, length;
} reference_built;

typedef struct {
    uint32_t refused, taken, state, reports, hops;
} reference_scanned;

/* The complement of the ones' complement sum of some words. */
uint32_t reference_check_word(const uint8_t *b, size_t length);
uint32_t reference_judge_table(const uint8_t *table, size_t length);
uint32_t reference_judge_image(const uint8_t *image, size_t length);
/* The level of each state of an accepted table, the fewest bytes from the start state to it; -1 where no payload leads to it. */
void reference_levels(const uint8_t *table, int *level);
reference_built reference_compact(const uint8_t *table, size_t length, uint32_t order, uint32_t bound, uint8_t *room, size_t room_length);
reference_built reference_write(const uint8_t *table, size_t length, const uint8_t *defaults, size_t defaults_length, uint8_t *room,
                                size_t room_length);
reference_built reference_expand(const uint8_t *image, size_t length, uint8_t *room, size_t room_length);
/* The image of a table with any list of defaults without a circle: what write made of it before request C-22, and makes where each default shares two classes or more with its state. */
reference_built reference_image(const uint8_t *table, size_t length, const uint8_t *defaults, size_t defaults_length, uint8_t *room,
                                size_t room_length);
reference_built reference_rewrite(const uint8_t *image, size_t length, uint8_t *room, size_t room_length);
/* An image of edition 1 into edition 2, and of edition 2 back into edition 1. */
reference_built reference_forward(const uint8_t *image, size_t length, uint8_t *room, size_t room_length);
reference_built reference_back(const uint8_t *image, size_t length, uint8_t *room, size_t room_length);
/* The table of a word list (C-23). Of a list that has the shape of one: which state stands for what was read, the longest ending of the payload that begins some string; and a plain search of every string at every offset,
 * its reports as scan writes them, by offset and rising, which answers how many there are. */
reference_built reference_strings(const uint8_t *list, size_t length, uint8_t *room, size_t room_length);
uint32_t reference_stands_for(const uint8_t *list, size_t length, const uint8_t *payload, size_t payload_length);
size_t reference_search(const uint8_t *list, size_t length, const uint8_t *payload, size_t payload_length, uint8_t *reports);
/* The table without the states that are not reached, and of those that no payload tells apart the smallest only (C-24). Whether two accepted tables over the same classes have the same labels at their start states and the
 * same reports from there for every payload. */
reference_built reference_reduce(const uint8_t *table, size_t length, uint8_t *room, size_t room_length);
int reference_same_reports(const uint8_t *table, const uint8_t *other);
reference_scanned reference_scan(const uint8_t *image, size_t length, uint32_t state, const uint8_t *payload, size_t payload_length,
                                 uint8_t *room, size_t room_length);
/* A patch held against an image, the image that it makes of it, and the scan of that one (C-20). */
uint32_t reference_judge_patch(const uint8_t *image, size_t length, const uint8_t *patch, size_t patch_length);
reference_built reference_apply(const uint8_t *image, size_t length, const uint8_t *patch, size_t patch_length, uint8_t *room, size_t room_length);
reference_scanned reference_scan_patched(const uint8_t *image, size_t length, const uint8_t *patch, size_t patch_length, uint32_t state, const uint8_t *payload, size_t payload_length, uint8_t *room,
                                         size_t room_length);
reference_scanned reference_walk(const uint8_t *table, size_t length, uint32_t state, const uint8_t *payload, size_t payload_length,
                                 uint8_t *room, size_t room_length);

#endif
