/* The defaults of order 3 in plain C: the levels by a search from the start state, each row read once, then for each state the one of lower level that shares the
 * most. */
#include "plain.h"

enum { UNREACHED = 65535 };

/* The fewest bytes from the start state to each state. */
static void find_levels(const uint8_t *rows, size_t n, size_t k, size_t start, uint16_t *level) {
    uint16_t queue[512];
    size_t head = 0, tail = 0;
    for (size_t s = 0; s < n; s++) level[s] = UNREACHED;
    level[start] = 0;
    queue[tail++] = (uint16_t)start;
    while (head < tail) {
        size_t s = queue[head++];
        for (size_t c = 0; c < k; c++) {
            size_t to = plain_number16(rows + 2 * (s * k + c));
            if (level[to] != UNREACHED) continue;
            level[to] = (uint16_t)(level[s] + 1);
            queue[tail++] = (uint16_t)to;
        }
    }
}

/* The classes that two states share, less one. */
static uint32_t weight_of(const uint8_t *rows, size_t k, size_t u, size_t v) {
    uint16_t same = 0;
    for (size_t c = 0; c < k; c++) same += plain_number16(rows + 2 * (u * k + c)) == plain_number16(rows + 2 * (v * k + c));
    return same ? same - 1u : 0;
}

void plain_toward(const uint8_t *table, size_t length, const uint8_t *weights, uint16_t *defaults) {
    size_t n = PLAIN_N(table), k = plain_number16(table + 2);
    const uint8_t *rows = table + length - 2 * n * k;
    uint16_t level[512];
    find_levels(rows, n, k, plain_number16(table + 4), level);
    for (size_t x = 0; x < n; x++) {
        uint32_t most = 0;
        defaults[x] = 65535;
        if (level[x] == UNREACHED) continue;
        for (size_t y = 0; y < n; y++) {
            if (level[y] >= level[x]) continue;
            uint32_t weight = !weights ? weight_of(rows, k, x, y) : x < y ? weights[x * 512 + y] : weights[y * 512 + x];
            if (weight <= most) continue;
            most = weight;
            defaults[x] = (uint16_t)y;
        }
    }
}
