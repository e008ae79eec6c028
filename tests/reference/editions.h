/* The two editions, for the reference. The first word of a table or an image is n, in edition 2 with 32768 added. Behind the classes edition 1 has a label for each state, 0 for no rule.
 * Edition 2 has a count for each state in its place, and behind the counts all labels, by state, rising and never 0. */
#ifndef REFERENCE_EDITIONS_H
#define REFERENCE_EDITIONS_H

#include <stddef.h>
#include <stdint.h>

enum { SECOND_EDITION = 32768, MOST_LABELS = 16 };

static inline uint32_t word_at(const uint8_t *b, size_t at) { return b[at] | (uint32_t)b[at + 1] << 8; }

static inline int is_second(const uint8_t *b) { return word_at(b, 0) >= SECOND_EDITION; }
static inline uint32_t states_of(const uint8_t *b) { return is_second(b) ? word_at(b, 0) - SECOND_EDITION : word_at(b, 0); }

/* How many labels stand behind the counts, which begin at a place: in edition 1 none. The counts are taken as they are, each up to 65535. */
static inline uint32_t labels_behind(const uint8_t *b, size_t counts) {
    uint32_t sum = 0;
    for (uint32_t s = 0; is_second(b) && s < states_of(b); s++) sum += word_at(b, counts + 2 * (size_t)s);
    return sum;
}

/* Whether edition 2 has a count above 16. */
static inline int counts_wrong(const uint8_t *b, size_t counts) {
    for (uint32_t s = 0; is_second(b) && s < states_of(b); s++)
        if (word_at(b, counts + 2 * (size_t)s) > MOST_LABELS) return 1;
    return 0;
}

/* The labels of each state, rising. */
typedef struct {
    uint32_t count[512], label[512][MOST_LABELS];
} label_lists;

/* Reads the labels of a table or an image whose counts are right: of edition 1 a list of none or one for each state. */
static inline void read_lists(const uint8_t *b, size_t counts, label_lists *lists) {
    size_t at = counts + 2 * (size_t)states_of(b);
    for (uint32_t s = 0; s < states_of(b); s++) {
        uint32_t word = word_at(b, counts + 2 * (size_t)s);
        lists->count[s] = is_second(b) ? word : word != 0;
        for (uint32_t i = 0; i < lists->count[s]; i++, at += 2) lists->label[s][i] = is_second(b) ? word_at(b, at) : word;
    }
}

/* Whether edition 2 has a label that is 0, or that does not rise above the one before in its state. */
static inline int labels_wrong(const uint8_t *b, size_t counts) {
    size_t at = counts + 2 * (size_t)states_of(b);
    for (uint32_t s = 0; is_second(b) && s < states_of(b); s++)
        for (uint32_t i = 0; i < word_at(b, counts + 2 * (size_t)s); i++, at += 2)
            if (word_at(b, at) == 0 || (i > 0 && word_at(b, at) <= word_at(b, at - 2))) return 1;
    return 0;
}

#endif
