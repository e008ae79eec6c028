/* An independent reading of what the programs print: `served` of request C-14, with which row served, and `bounds` of the definition paper. Plain and slow, as reference.h
 * is, and it shares no code with them. */
#ifndef REFERENCE_PROGRAMS_H
#define REFERENCE_PROGRAMS_H

#include <stddef.h>
#include <stdint.h>

/* Of each state how often it served, and how often it was the running state when a byte was read; then all hops, how many bytes needed none, and the state behind the last. */
typedef struct {
    uint64_t served[512], ran[512], hops, without_hop;
    uint32_t state;
} reference_columns;

/* The columns of an accepted image and a payload, every byte of it taken from the image's start state on. */
void reference_serve(const uint8_t *image, const uint8_t *payload, size_t payload_length, reference_columns *columns);

/* A text has fewer bytes than this: 512 lines of three numbers are the longest. */
enum { REFERENCE_TEXT = 512 * 48 };

/* The lines of an accepted image and a payload, and what each program prints of an input. Each answers the text's length. */
size_t reference_served_lines(const uint8_t *image, const uint8_t *payload, size_t payload_length, char *text);
size_t reference_served_text(const uint8_t *input, size_t length, char *text);
size_t reference_bounds_text(const uint8_t *input, size_t length, char *text);

#endif
