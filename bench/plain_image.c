/* The image of a table with defaults in C. Counts and the worst are found for 16 classes at a time, the states each after its default. */
#include "plain.h"

enum { BLOCK = 16 };

/* How many entries each state keeps, and the worst. */
static uint32_t tally(const uint8_t *rows, const plain_chains *chains, size_t n, size_t k, uint16_t *counts) {
    int16_t hops[512][BLOCK], most = 0;
    memset(counts, 0, 2 * n);
    for (size_t first = 0; first < k; first += BLOCK) {
        size_t width = k - first < BLOCK ? k - first : BLOCK;
        for (size_t i = 0; i < n; i++) {
            size_t s = chains->order[i], fallback = chains->fallback[i];
            uint16_t kept = 0;
            if (fallback == n) {
                memset(hops[i], 0, sizeof hops[i]);
                counts[s] = (uint16_t)k;
                continue;
            }
            const uint8_t *own = rows + 2 * (s * k + first), *other = rows + 2 * (chains->order[fallback] * k + first);
            for (size_t j = 0; j < width; j++) {
                int differs = plain_number16(own + 2 * j) != plain_number16(other + 2 * j);
                int16_t steps = differs ? 0 : (int16_t)(hops[fallback][j] + 1);
                hops[i][j] = steps;
                most = steps > most ? steps : most;
                kept = (uint16_t)(kept + differs);
            }
            counts[s] = (uint16_t)(counts[s] + kept);
        }
    }
    return (uint32_t)most;
}

/* Writes the entries of a state; answers the place behind them. What is not kept is written over. */
static uint8_t *put_row(const uint8_t *own, const uint8_t *other, size_t k, uint8_t *entry) {
    for (size_t c = 0; c < k; c++) {
        uint32_t next = plain_number16(own + 2 * c);
        plain_put32(entry, (uint32_t)c | next << 16);
        entry += !other || next != plain_number16(other + 2 * c) ? 4 : 0;
    }
    return entry;
}

/* Ground 25: a state with a default keeps all entries or all but one, so it shares fewer than two classes with the default. */
static int shares_few(const uint16_t *defaults, const uint16_t *counts, size_t n, size_t k) {
    int few = 0;
    for (size_t s = 0; s < n; s++) few |= defaults[s] != 65535 && counts[s] + 2u > k;
    return few;
}

/* Classes and labels stand in the image as in the table; edition 2 has more of them. Where a list is written 25 is tested too. */
EACH_EDITION kamordast_built image_of(const uint8_t *table, size_t length, const uint16_t *defaults, const plain_chains *chains, uint8_t *room, size_t room_length, int second, int listed) {
    size_t n = second ? plain_states(table) : plain_number16(table), k = plain_number16(table + 2), m = 0, labels = second ? length - 262 - 2 * n - 2 * n * k : 0;
    const uint8_t *rows = table + length - 2 * n * k;
    uint16_t counts[512];
    uint32_t worst = tally(rows, chains, n, k, counts);
    if (listed && shares_few(defaults, counts, n, k)) return (kamordast_built){25, 0};
    for (size_t s = 0; s < n; s++) m += counts[s];
    size_t whole = 280 + 6 * n + labels + 4 * m;
    if (room_length < whole) return (kamordast_built){16, 0};
    memcpy(room, table, 6);
    plain_put16(room + 6, chains->depth);
    plain_put32(room + 8, (uint32_t)m);
    memcpy(room + 12, table + 6, 256 + 2 * n + labels);
    uint8_t *records = room + 268 + 2 * n + labels, *entry = records + 4 * n;
    for (size_t s = 0; s < n; s++) {
        plain_put16(records + 4 * s, defaults[s]);
        plain_put16(records + 4 * s + 2, counts[s]);
        entry = put_row(rows + 2 * s * k, defaults[s] == 65535 ? NULL : rows + 2 * defaults[s] * k, k, entry);
    }
    plain_put32(entry, (uint32_t)(4 * m + 12));
    plain_put32(entry + 4, (uint32_t)whole);
    plain_put16(entry + 8, worst);
    plain_put16(entry + 10, plain_check_word(room, whole - 2));
    return (kamordast_built){0, (uint32_t)whole};
}

kamordast_built plain_image(const uint8_t *table, size_t length, const uint16_t *defaults, const plain_chains *chains, uint8_t *room, size_t room_length) {
    return image_of(table, length, defaults, chains, room, room_length, 0, 0);
}

kamordast_built plain_second_image(const uint8_t *table, size_t length, const uint16_t *defaults, const plain_chains *chains, uint8_t *room, size_t room_length) {
    return image_of(table, length, defaults, chains, room, room_length, 1, 0);
}

kamordast_built plain_listed_image(const uint8_t *table, size_t length, const uint16_t *defaults, const plain_chains *chains, uint8_t *room, size_t room_length) {
    return image_of(table, length, defaults, chains, room, room_length, 0, 1);
}

kamordast_built plain_second_listed_image(const uint8_t *table, size_t length, const uint16_t *defaults, const plain_chains *chains, uint8_t *room, size_t room_length) {
    return image_of(table, length, defaults, chains, room, room_length, 1, 1);
}
