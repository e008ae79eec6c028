/* The cases of the figures: each fills the inputs of operations.h and names itself. */
#ifndef CASES_H
#define CASES_H

#include <stdint.h>

/* What the case at hand is called. */
extern char case_name[96];

/* The word list of k classes compacted with a bound; and a payload of 65,536 bytes for it, of text or of near misses. */
void use_words(uint32_t k, uint32_t bound);
void use_payload(int near);

/* The same word list in edition 2, where a word has one to four labels. */
void use_lists(uint32_t k, uint32_t bound);

/* The largest table of edition 2, of random rows and with 16 labels on each state, compacted with a bound; and a payload of 4,096 bytes for it, each of which gives 16 reports. */
void use_full_lists(uint32_t bound);

/* The largest table, n 512 and k 256, with equal, path or random rows, compacted with a bound. */
void use_largest(const char *shape, uint32_t bound);

/* The largest table with 511 levels behind the start, compacted with a bound. */
void use_levels(uint32_t bound);

/* A word list for strings, and its table: the words of the word list of k classes; or 64 strings of up to 32 bytes that share their beginnings, have 512 states and up to 16 labels on a state. */
void use_listed_words(uint32_t k);
void use_overlapping_strings(void);

/* Tables to reduce, all of 512 states and 256 classes but the first: the table of the word list of k classes, eight labels shared by all words, by their first letters; a table of 128 states four times over; a chain that splits one by one. */
void use_shared_labels(uint32_t k);
void use_fourfold(void);
void use_splitting_chain(void);

/* The image at hand moved into edition 2, with at most one label on a state. */
void use_forward(void);

/* The image of the same table and bound in another order; order 3 has no bound in its name. */
void use_order(uint32_t order);

/* An image of 512 states and 256 classes, every other of which falls to state 0 and shares one class with it, the others half. */
void use_unworthy(void);

/* A patch for the image at hand: it lists so many states, evenly from state 0 on, as they stand, so that it makes the image itself. */
void use_patch(uint32_t number);

/* A patch for the image of 511 defaults in one chain, which lists 64 states of it. */
void use_patched_chain(void);

/* Images of 512 states with 128 entries each, to judge: all states fall to the root; all in one chain. */
void use_flat(void);
void use_chain(void);

/* An image and 4,096 bytes of payload that take 511 hops a byte. */
void use_detour(void);

#endif
