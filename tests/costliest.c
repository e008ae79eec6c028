/* Payloads made to cost the most: of no byte nothing, of one byte more the most that its first byte and the costliest rest behind it cost together. */
#include "costliest.h"

#include <stdlib.h>
#include <string.h>

#include "support.h"

/* A byte that leads from a state to a next state, and its hops. */
typedef struct {
    uint16_t to, hops;
    uint8_t byte;
} way;

struct costliest {
    uint32_t n;
    size_t bytes;
    uint32_t begin[513]; /* of the ways of each state */
    way *ways;
    uint8_t *chosen; /* for each number of bytes left, less one, and each state */
    uint32_t hops[512];
};

/* The next state of each state and class, or -1 where it stores nothing, from the image's records and entries. */
static void read_entries(const uint8_t *image, size_t length, int32_t (*stored)[256], uint32_t *fallback) {
    uint32_t n = states_in(image);
    size_t at = length - 12 - 4 * (size_t)number32(image, 8), records = at - 4 * (size_t)n;
    memset(stored, 255, 512 * sizeof *stored);
    for (uint32_t s = 0; s < n; s++) {
        fallback[s] = number16(image, records + 4 * (size_t)s);
        for (uint32_t j = number16(image, records + 4 * (size_t)s + 2); j; j--, at += 4) stored[s][number16(image, at)] = (int32_t)number16(image, at + 2);
    }
}

/* The ways from a state: of the bytes that lead to one next state one that costs the most. Answers how many. */
static uint32_t ways_from(const uint8_t *image, int32_t (*stored)[256], const uint32_t *fallback, uint32_t s, way *ways) {
    uint32_t count = 0;
    for (uint32_t x = 0; x < 256; x++) {
        uint32_t c = image[12 + x], at = s, hops = 0, i = 0;
        for (; stored[at][c] < 0; hops++) at = fallback[at];
        uint32_t to = (uint32_t)stored[at][c];
        while (i < count && ways[i].to != to) i++;
        if (i < count && ways[i].hops >= hops) continue;
        ways[i] = (way){(uint16_t)to, (uint16_t)hops, (uint8_t)x};
        count += i == count;
    }
    return count;
}

costliest *find_costliest(const uint8_t *image, size_t length, size_t bytes) {
    static int32_t stored[512][256];
    uint32_t fallback[512], before[512];
    costliest *found = calloc(1, sizeof *found);
    found->n = states_in(image);
    found->bytes = bytes;
    found->ways = malloc(512 * 256 * sizeof *found->ways);
    found->chosen = malloc(bytes * found->n + 1);
    read_entries(image, length, stored, fallback);
    for (uint32_t s = 0; s < found->n; s++) found->begin[s + 1] = found->begin[s] + ways_from(image, stored, fallback, s, found->ways + found->begin[s]);
    for (size_t left = 0; left < bytes; left++) {
        memcpy(before, found->hops, sizeof before);
        for (uint32_t s = 0; s < found->n; s++) {
            uint32_t best = found->begin[s], most = 0;
            for (uint32_t i = best; i < found->begin[s + 1]; i++) {
                uint32_t hops = found->ways[i].hops + before[found->ways[i].to];
                if (hops > most) {
                    most = hops;
                    best = i;
                }
            }
            found->hops[s] = most;
            found->chosen[left * found->n + s] = (uint8_t)(best - found->begin[s]);
        }
    }
    return found;
}

uint32_t costliest_from(const costliest *found, uint32_t state, uint8_t *payload) {
    uint32_t hops = found->hops[state];
    for (size_t left = found->bytes; left > 0; left--) {
        const way *taken = found->ways + found->begin[state] + found->chosen[(left - 1) * found->n + state];
        *payload++ = taken->byte;
        state = taken->to;
    }
    return hops;
}

void forget_costliest(costliest *found) {
    free(found->chosen);
    free(found->ways);
    free(found);
}
