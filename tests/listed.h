/* A word list at hand, and what strings makes of it held to the independent reading and to a plain search. */
#ifndef LISTED_H
#define LISTED_H

#include "built.h"

/* The list at hand, with room for one that is too long. */
extern uint8_t list[70 * (4 + 40) + 2];
extern size_t length;

/* How many lists were taken, the longest of them and the most states; how many runs were searched, with how many matches, and how many of these at an offset with another. */
extern uint64_t tables, longest_list, most_states, runs, matches, several;

/* Begins an empty list; adds a string to it. */
void begin_list(void);
void add(uint32_t label, const void *bytes, size_t string_length);

/* Where string i of the list stands, and a label that the list does not have yet. */
size_t place_of(uint32_t i);
uint32_t some_label(void);

/* The list in rooms of every kind is answered with this number. */
void answers(uint32_t number, const char *sentence);

/* The list is taken, in rooms around its table's length; so many payloads through the table, and through its images in the four orders, report what a search of every string at every offset finds. The table is left in `wanted`. */
void taken(int payloads);

#endif
