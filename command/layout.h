/* Where things stand in tables and images of both editions, for those who read one that was accepted (docs/FORMATS.md). */
#ifndef LAYOUT_H
#define LAYOUT_H

#include <stddef.h>
#include <stdint.h>

#include "kamordast.h"

enum {
    LONGEST_TABLE = KAMORDAST_LARGEST_TABLE,
    LONGEST_IMAGE = KAMORDAST_LARGEST_IMAGE,
    LONGEST_PATCH = KAMORDAST_LARGEST_PATCH,
    LONGEST_PAYLOAD = 65536,
    LONGEST_REPORTS = 6 * KAMORDAST_MOST_LABELS * LONGEST_PAYLOAD,
    TABLE_LABELS = 262, /* where the labels begin, or in edition 2 their counts */
    IMAGE_LABELS = 268,
    NO_STATE = 65535,
};

static inline uint32_t number16(const uint8_t *b, size_t at) { return b[at] + 256u * b[at + 1]; }
static inline uint32_t number32(const uint8_t *b, size_t at) { return number16(b, at) + 65536u * number16(b, at + 2); }

static inline void put16(uint8_t *at, uint32_t x) {
    at[0] = (uint8_t)x;
    at[1] = (uint8_t)(x >> 8);
}

static inline void put32(uint8_t *at, uint32_t x) {
    put16(at, x);
    put16(at + 2, x >> 16);
}

/* The check word of bytes, an even number of them: the complement of the ones' complement sum of their words. */
static inline uint32_t check_word(const uint8_t *b, size_t length) {
    uint32_t sum = 0;
    for (size_t at = 0; at < length; at += 2) {
        sum += number16(b, at);
        if (sum > 65535) sum -= 65535;
    }
    return 65535 - sum;
}

/* Edition 2 adds 32768 to the first word, which is n otherwise. */
static inline uint32_t edition_of(const uint8_t *b) { return number16(b, 0) < 32768 ? 1 : 2; }
static inline uint32_t states_of(const uint8_t *b) { return number16(b, 0) % 32768; }

/* How many labels all states have together: in edition 1 those that are not 0, in edition 2 the sum of the counts. */
static inline uint32_t labels_of(const uint8_t *b, size_t at) {
    uint32_t sum = 0;
    for (uint32_t s = 0; s < states_of(b); s++, at += 2) sum += edition_of(b) == 2 ? number16(b, at) : number16(b, at) != 0;
    return sum;
}

/* Where the records of an accepted image begin, and behind them its entries: from its back. */
static inline size_t entries_at(const uint8_t *image, size_t length) { return length - 12 - 4 * (size_t)number32(image, 8); }
static inline size_t records_at(const uint8_t *image, size_t length) { return entries_at(image, length) - 4 * (size_t)states_of(image); }

#endif
