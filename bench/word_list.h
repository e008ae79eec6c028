/* Word lists to measure with: words of 4 to 12 letters at random, their table of about 490 states, and payloads made of them. The same on each run. */
#ifndef WORD_LIST_H
#define WORD_LIST_H

#include <stddef.h>
#include <stdint.h>

typedef struct {
    uint32_t k;      /* classes: 27 with the letters a to z, 209 with 208 bytes as letters */
    uint32_t number; /* of words */
    uint32_t lengths[512];
    uint8_t words[512][13];
} word_list;

/* Makes the list of k classes and its table; answers the table's length. */
size_t make_word_list(word_list *list, uint32_t k, uint8_t *table);

/* Cuts the list to 64 words, as strings takes them, of which every third is made an ending of the word before it: then several words end at one offset. */
void make_overlaps(word_list *list);

/* Fills the payload: letters and some words (text), or words that end one letter early (near misses). */
void make_payload(const word_list *list, int near, uint8_t *payload, size_t bytes);

#endif
