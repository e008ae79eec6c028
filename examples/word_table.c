/* The automaton of Aho and Corasick: a tree of the words, then from the root outwards each missing branch is that of the longest shorter end. */
#include "word_table.h"

#include <string.h>

static uint16_t next[512][256], shorter[512], labels[512], own[512]; /* own: of the word that is the way to the state */
static uint8_t class_of[256];
static uint32_t n, k, words;

void words_begin(const uint8_t *classes, uint32_t number) {
    memset(next, 0, sizeof next);
    memset(labels, 0, sizeof labels);
    memset(own, 0, sizeof own);
    memcpy(class_of, classes, 256);
    n = 1;
    k = number;
    words = 0;
}

uint32_t words_add(const uint8_t *word, size_t length) {
    uint32_t at = 0;
    for (size_t i = 0; i < length; i++) {
        uint16_t *branch = &next[at][class_of[word[i]]];
        if (!*branch) *branch = (uint16_t)n++;
        at = *branch;
    }
    labels[at] = own[at] = (uint16_t)++words;
    return n;
}

/* Fills the missing branches; a state without a word of its own has the label of its longest shorter end. */
static void fill(void) {
    uint16_t order[512];
    uint32_t taken = 0, put = 1;
    order[0] = 0;
    while (taken < put) {
        uint32_t s = order[taken++];
        for (uint32_t c = 0; c < k; c++) {
            uint32_t t = next[s][c];
            if (t) {
                shorter[t] = s ? next[shorter[s]][c] : 0;
                if (!labels[t]) labels[t] = labels[shorter[t]];
                order[put++] = (uint16_t)t;
            } else if (s) next[s][c] = next[shorter[s]][c];
        }
    }
}

static void put16(uint8_t *at, uint32_t x) {
    at[0] = x & 255;
    at[1] = x >> 8 & 255;
}

/* The front and the classes. */
static void put_front(uint8_t *table, uint32_t edition) {
    put16(table, edition == 2 ? 32768 + n : n);
    put16(table + 2, k);
    put16(table + 4, 0);
    memcpy(table + 6, class_of, 256);
}

static uint8_t *put_rows(uint8_t *at) {
    for (uint32_t s = 0; s < n; s++)
        for (uint32_t c = 0; c < k; c++, at += 2) put16(at, next[s][c]);
    return at;
}

size_t words_table(uint8_t *table) {
    fill();
    put_front(table, 1);
    uint8_t *at = table + 262;
    for (uint32_t s = 0; s < n; s++, at += 2) put16(at, labels[s]);
    return (size_t)(put_rows(at) - table);
}

/* The numbers of the words that end at a state, which are its own and those of its shorter ends, rising; answers how many. */
static uint32_t ending(uint32_t s, uint16_t *list) {
    uint32_t count = 0;
    for (; s; s = shorter[s]) {
        if (!own[s]) continue;
        uint32_t i = count++;
        for (; i > 0 && list[i - 1] > own[s]; i--) list[i] = list[i - 1];
        list[i] = own[s];
    }
    return count;
}

size_t words_second_table(uint8_t *table) {
    fill();
    put_front(table, 2);
    uint8_t *at = table + 262 + 2 * n;
    for (uint32_t s = 0; s < n; s++) {
        uint16_t list[16];
        uint32_t count = ending(s, list);
        put16(table + 262 + 2 * s, count);
        for (uint32_t i = 0; i < count; i++, at += 2) put16(at, list[i]);
    }
    return (size_t)(put_rows(at) - table);
}
