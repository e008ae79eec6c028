/* Which rows of an image do the work on a payload. */
#ifndef SERVED_H
#define SERVED_H

#include <stddef.h>
#include <stdint.h>

/* Prints a line for each state of an image from 0 up, or the state that served most first: the state, how often its entry served, how often it was the running state when a
 * byte of the payload was read. Then says on standard error how many bytes needed no hop. Answers a status. */
int served(const char *image, const char *payload, int sorted);

/* An image that was accepted, and what a payload did with it: how often each state served and ran, bytes, those without a hop, hops and reports. */
typedef struct {
    const uint8_t *image;
    size_t length;
    const uint64_t *served, *running;
    uint64_t bytes, without_hop, hops, reports;
} row_counts;

/* Told each report of the payload, in order: the offset in all of it, and the label. */
typedef void reported(uint64_t offset, uint32_t label);

/* Reads an image and has it judged, takes a payload of any length from its start state where one is named, and holds each piece of it to the proved scan. Answers the status; nothing is printed but what is wrong. */
int count_rows(const char *image_name, const char *payload_name, row_counts *counts, reported *tell);

/* Of the image that was read last: the hops that a state and a class cost; its states from 0 up, or those that served most first. */
uint32_t hops_of(uint32_t state, uint32_t class);
void by_work(uint16_t *states, uint32_t n, int sorted);

#endif
