/* The label lists of edition 2 in C: ground 19 in its two places, and where each state's labels begin. */
#include "plain.h"

long plain_labels(const uint8_t *counts, size_t n) {
    uint32_t sum = 0, largest = 0;
    for (size_t s = 0; s < n; s++) {
        uint32_t count = plain_number16(counts + 2 * s);
        sum += count;
        largest = count > largest ? count : largest;
    }
    return largest > 16 ? -1 : (long)sum;
}

int plain_labels_bad(const uint8_t *counts, size_t n) {
    const uint8_t *label = counts + 2 * n;
    for (size_t s = 0; s < n; s++) {
        uint32_t before = 0;
        for (size_t left = plain_number16(counts + 2 * s); left; left--, label += 2) {
            uint32_t now = plain_number16(label);
            if (now <= before) return 1;
            before = now;
        }
    }
    return 0;
}

void plain_places(const uint8_t *counts, size_t n, uint16_t *places) {
    places[0] = 0;
    for (size_t s = 0; s < n; s++) places[s + 1] = (uint16_t)(places[s] + plain_number16(counts + 2 * s));
}
