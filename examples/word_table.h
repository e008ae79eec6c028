/* The plain table of a list of words: the automaton of Aho and Corasick, at most 512 states. Words are numbered from 1. In edition 1 the label of a state is the number of the longest
 * word that ends there; in edition 2 it has the numbers of all words that end there, at most 16. */
#ifndef WORD_TABLE_H
#define WORD_TABLE_H

#include <stddef.h>
#include <stdint.h>

/* Begins a list: the class of each byte, and the number of classes. */
void words_begin(const uint8_t *classes, uint32_t k);

/* Adds a word; answers how many states there are now. */
uint32_t words_add(const uint8_t *word, size_t length);

/* Writes the table of the words added, in edition 1 or 2; answers its length. No word is added afterwards. */
size_t words_table(uint8_t *table);
size_t words_second_table(uint8_t *table);

#endif
