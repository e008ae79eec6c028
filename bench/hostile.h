/* Tables and lists of defaults, n 512 and k 256, whose images are valid and made to hurt, and one to compare with. Each answers the table's length and
 * fills the list. */
#ifndef HOSTILE_H
#define HOSTILE_H

#include <stddef.h>
#include <stdint.h>

/* Ordinary: every state but the root stores 128 entries and falls to the root. */
size_t make_flat(uint8_t *table, uint8_t *defaults);

/* The same, but that every other state stores 255 entries: its default shares one class with it and is not worth its hops. */
size_t make_unworthy(uint8_t *table, uint8_t *defaults);

/* The same number of entries as the first, but each state falls to the one before it: one chain of 511 steps. */
size_t make_chain(uint8_t *table, uint8_t *defaults);

/* One chain of states that store every class but one, and the byte of that one: 511 hops for each such byte, from state 511. */
size_t make_detour(uint8_t *table, uint8_t *defaults, uint8_t *asked);

/* A chain of 512 states to reduce: each leads to the next by the last class and to the first by all others, and only the last has a label, so that each round splits off one state. Answers the table's length. */
size_t make_splitting(uint8_t *table);

#endif
