/* The drawings of a page, as SVG that stands in it, and text that is made safe for it. */
#ifndef DRAWING_H
#define DRAWING_H

#include <stddef.h>
#include <stdint.h>

/* Prints a name; what HTML would take for its own, and every byte that is no plain letter, is put otherwise. */
void put_name(const char *name);

/* Bars, one below the other, each with its words and its number; the numbers are said in a table beside it, so that this is for the eye alone. */
void draw_bars(const char (*words)[32], const uint64_t *numbers, uint32_t count);

/* Where in so many bytes reports were, in bars from left to right, each of `width` bytes. */
void draw_places(const uint32_t *numbers, uint32_t count, uint64_t width);

/* The forest of an accepted image: each state below the one that it falls to, a step to the right, in columns of 64 rows. */
void draw_forest(const uint8_t *image, size_t length);

#endif
