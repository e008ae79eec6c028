/* Kamordast: rule tables made of word lists and reduced, compacted into images, judged, expanded, rewritten, moved across the editions, patched, scanned and walked. Every function is proved to meet the definition paper.
 *
 * A slice is a pointer and a length. The pointer is never null, not even for a length of 0, and a room overlaps no other slice. A caller that breaks this is
 * promised nothing.
 * `refused` is 0, or the number of the refusal (docs/OPERATORS.md); then every other number is 0 and no lent byte has changed.
 */
#ifndef KAMORDAST_H
#define KAMORDAST_H

#include <stddef.h>
#include <stdint.h>

#ifdef __cplusplus
extern "C" {
#endif

/* Both formats come in two editions, and every function takes both; what compact, write, expand, rewrite, apply and reduce make is of their input's edition, forward and back make the other, and strings makes edition 2. All numbers are little-endian. A
 * table is n, k and the start state (16 bits each), 256 bytes with the class of each byte, the labels, and n rows of k next states. An image is n, k, start, depth (16 bits each) and m (32 bits),
 * the 256 classes, the labels, n records (default state or 65535, count of entries), m entries (class, next state) and a trailer of 12 bytes. The labels are, in
 *   edition 1: a label of 16 bits for each state, 0 for no rule. The first word is n, 1 to 512.
 *   edition 2: a count of 16 bits for each state, 0 to 16, and behind the counts all labels, 16 bits each, by state, rising within a state and never 0. The first word is n and 32768.
 * docs/FORMATS.md has every byte of both. A loader that knows edition 1 only refuses an image of edition 2 with 2. */

/* The largest table and the largest image that there are, of either edition: a room of so many bytes is always enough for expand, strings and reduce, and for
 * compact, write, rewrite, apply, forward and back. */
#define KAMORDAST_LARGEST_TABLE 279814
#define KAMORDAST_LARGEST_IMAGE 544024

/* The most labels of a state: a room of 6 times so many bytes for each byte of a payload is always enough for its reports. */
#define KAMORDAST_MOST_LABELS 16

/* The most strings of a word list, the longest string, and the longest list that strings takes. */
#define KAMORDAST_MOST_STRINGS 64
#define KAMORDAST_LONGEST_STRING 32
#define KAMORDAST_LONGEST_LIST 2306

/* The most states that a patch lists, and the longest patch that is accepted of any image. */
#define KAMORDAST_MOST_PATCHED 64
#define KAMORDAST_LARGEST_PATCH 65942

/* What compact, write, expand, rewrite, forward, back, strings, reduce and apply answer: 0 or the refusal's number, and the length of the result in the room. */
typedef struct {
    uint32_t refused;
    uint32_t length;
} kamordast_built;

/* What scan, walk and the patched scan answer: 0 or the refusal's number, bytes taken, the state, reports and hops. */
typedef struct {
    uint32_t refused;
    uint32_t taken;
    uint32_t state;
    uint32_t reports;
    uint32_t hops;
} kamordast_scanned;

/* Judges a plain table: 0, or the refusal's number. */
uint32_t kamordast_judge_table(const uint8_t *table, size_t table_length);

/* Judges an image: 0, or the refusal's number. An image is to be used only after it was judged 0, and only as long as it stays unchanged. */
uint32_t kamordast_judge_image(const uint8_t *image, size_t image_length);

/* Compacts a table with a path bound into an image at the front of the room; the rest of the room stays. This is order 0. */
kamordast_built kamordast_compact(const uint8_t *table, size_t table_length, uint16_t bound, uint8_t *room, size_t room_length);

/* The same with the forest in an order: among pairs of equal weight order 0 goes by pair; order 1 (BGS) takes the pair with the shortest longest path over it
 * first; order 2 (REF) the pair that lengthens its trees' longest path least. In order 3 there is no forest and the bound is ignored: each state that some payload
 * reaches falls back to the state nearer the start that shares the most next states with it, in at least two classes, so that a scan from the start state never takes
 * more hops than bytes. An order above 3 is refused with 18. */
kamordast_built kamordast_compact_in_order(const uint8_t *table, size_t table_length, uint32_t order, uint16_t bound, uint8_t *room, size_t room_length);

/* Writes a table with a list of defaults, 16 bits for each of the n states and 65535 for none, into an image at the front of the room. A list in which a default shares fewer than two classes
 * with its state, by the rows of the table, is refused with 25: such a default saves one entry at best and costs hops. Images that have one are still taken by every function. */
kamordast_built kamordast_write(const uint8_t *table, size_t table_length, const uint8_t *defaults, size_t defaults_length, uint8_t *room,
                                size_t room_length);

/* Expands an image into its table at the front of the room. */
kamordast_built kamordast_expand(const uint8_t *image, size_t image_length, uint8_t *room, size_t room_length);

/* Rewrites an image without the defaults that share fewer than two classes with their states: each such state stores its whole row, every other default stays. Every scan takes the same bytes, reports the
 * same and ends in the same state, and no state and byte cost more hops than before. The result can be longer than the image; without such a default it is the image, byte for byte. */
kamordast_built kamordast_rewrite(const uint8_t *image, size_t image_length, uint8_t *room, size_t room_length);

/* Moves an image of edition 1 into edition 2, at the front of the room: the label 0 becomes an empty list, any other a list of one. Nothing else changes but the whole length and the check word, so every
 * scan answers and reports the same. An image of edition 2 is refused with 20. */
kamordast_built kamordast_forward(const uint8_t *image, size_t image_length, uint8_t *room, size_t room_length);

/* Moves an image of edition 2 back into edition 1: an empty list becomes the label 0, a list of one its label. An image of edition 1 is refused with 20, and one in which a state has more than one label with
 * 21. Forward and then back, or back and then forward, gives the same bytes. */
kamordast_built kamordast_back(const uint8_t *image, size_t image_length, uint8_t *room, size_t room_length);

/* Makes the table of a word list, of edition 2, at the front of the room. The list is a count, 1 to 64, then for each string its label, its length, 1 to 32, and its bytes; count, label and length have 16 bits each, and nothing
 * stands after. After any payload from the start state, which is state 0, a walk of the table stands for the longest ending of it that begins some string, and what it reports at each offset are exactly the labels of all strings
 * that end there, rising; so does a scan of any image built of it. A list of another shape is refused with 26, a label that is 0 or stands twice with 27, more than 16 labels on a state with 19, more than 512 states with 28. */
kamordast_built kamordast_strings(const uint8_t *list, size_t list_length, uint8_t *room, size_t room_length);

/* Reduces a table, at the front of the room: states that no payload reaches from the start state go, and of states that no payload tells apart the smallest stays. The start state's labels and the reports from it stay the
 * same for every payload, and no table with the same classes, start labels and reports has fewer states. States are numbered anew; classes, and whether it is of edition 1 or 2, stay. */
kamordast_built kamordast_reduce(const uint8_t *table, size_t table_length, uint8_t *room, size_t room_length);

/* Scans a payload from a state. A report is 6 bytes in the room: the byte's offset in this call (32 bits) and the label (16 bits). A byte that lands on a state with several labels
 * gives as many reports, in rising order. The scan stops before the first byte whose reports do not all fit, and writes none of them. */
kamordast_scanned kamordast_scan(const uint8_t *image, size_t image_length, uint32_t state, const uint8_t *payload, size_t payload_length,
                                 uint8_t *room, size_t room_length);

/* Walks a payload from a state of a plain table, without an image: the same reports, room rule and answers as a scan of any image of the table, and always 0 hops. */
kamordast_scanned kamordast_walk(const uint8_t *table, size_t table_length, uint32_t state, const uint8_t *payload, size_t payload_length,
                                 uint8_t *room, size_t room_length);

/* A patch gives 1 to 64 states of one image new records and entries, and the image a new depth and a new worst: p, depth, worst (16 bits each), q (32 bits), p state numbers, rising, p records, q entries and a trailer of 12 bytes
 * (docs/FORMATS.md). The trailer has the check word of the image that it fits. Labels, classes, the start state and the edition are the image's.
 *
 * Judges a patch against an image: 0, or the refusal's number. First the image's own; then 22, the patch was cut or altered; 23, it was made for another image; 24, it lists states that do not rise or are not below n; then 8 to 13, where the
 * image that it makes would be refused so. Every proper beginning of an accepted patch, and every copy with one byte altered, is refused with 22. */
uint32_t kamordast_judge_patch(const uint8_t *image, size_t image_length, const uint8_t *patch, size_t patch_length);

/* Applies a patch to an image, into a new image at the front of the room. The result is accepted. Its check word is computed anew, so that most times the patch does not fit it any more. A room that is too short is refused with 16. */
kamordast_built kamordast_apply(const uint8_t *image, size_t image_length, const uint8_t *patch, size_t patch_length, uint8_t *room, size_t room_length);

/* Scans a payload from a state by an image and a patch, without applying it: the entries are taken from the patch where it lists the state, else from the image. Answers and reports what a scan of the applied image does, hops too. */
kamordast_scanned kamordast_scan_patched(const uint8_t *image, size_t image_length, const uint8_t *patch, size_t patch_length, uint32_t state, const uint8_t *payload, size_t payload_length,
                                         uint8_t *room, size_t room_length);

#ifdef __cplusplus
}
#endif

#endif
