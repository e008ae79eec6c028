/* The hostile tables, row by row, over a table that is accepted. */
#include "hostile.h"

#include <string.h>

#include "support.h"

static const uint32_t n = 512, k = 256;

static size_t place_of(uint32_t s, uint32_t c) { return 262 + 2 * n + 2 * (s * k + c); }

/* A table without labels whose rows are still to be filled, and a list by which each state falls to the one before it, or all to state 0. */
static size_t begin(uint8_t *table, uint8_t *defaults, int chain) {
    seed(1);
    size_t length = make_table(table, n, k, 256);
    memset(table + 262, 0, 2 * n);
    for (uint32_t s = 0; s < n; s++) set16(defaults, 2 * s, s == 0 ? 65535 : chain ? s - 1 : 0);
    return length;
}

size_t make_flat(uint8_t *table, uint8_t *defaults) {
    size_t length = begin(table, defaults, 0);
    for (uint32_t s = 0; s < n; s++)
        for (uint32_t c = 0; c < k; c++) set16(table, place_of(s, c), c < 128 ? s : 0);
    return length;
}

size_t make_unworthy(uint8_t *table, uint8_t *defaults) {
    size_t length = begin(table, defaults, 0);
    for (uint32_t s = 0; s < n; s++)
        for (uint32_t c = 0; c < k; c++) set16(table, place_of(s, c), c < (s % 2 ? 255u : 128u) ? s : 0);
    return length;
}

size_t make_chain(uint8_t *table, uint8_t *defaults) {
    size_t length = begin(table, defaults, 1);
    for (uint32_t s = 0; s < n; s++)
        for (uint32_t c = 0; c < k; c++) {
            /* A state differs from the one before it in the lower classes or in the upper ones, by turns. */
            int own = s == 0 || (s % 2 ? c < 128 : c >= 128);
            set16(table, place_of(s, c), own ? s : number16(table, place_of(s - 1, c)));
        }
    return length;
}

size_t make_detour(uint8_t *table, uint8_t *defaults, uint8_t *asked) {
    size_t length = begin(table, defaults, 1);
    for (uint32_t s = 0; s < n; s++)
        for (uint32_t c = 0; c < k; c++) set16(table, place_of(s, c), c == k - 1 ? n - 1 : s);
    for (uint32_t x = 0; x < 256; x++)
        if (table[6 + x] == k - 1) *asked = (uint8_t)x;
    return length;
}

size_t make_splitting(uint8_t *table) {
    uint8_t defaults[1024];
    size_t length = begin(table, defaults, 0);
    set16(table, 4, 0);
    set16(table, 262 + 2 * (n - 1), 7);
    for (uint32_t s = 0; s < n; s++)
        for (uint32_t c = 0; c < k; c++) set16(table, place_of(s, c), c + 1 < k ? 0 : s + 1 < n ? s + 1 : s);
    return length;
}
