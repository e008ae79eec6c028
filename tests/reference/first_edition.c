/* The reference's judge of an image as it stood before there was a second edition: only 01's grounds, 1 to 13. It shares no code with the reference of today. */
#include "first_edition.h"

#include <stdlib.h>
#include <string.h>

enum { NONE = 65535, MOST_STATES = 512, MOST_CLASSES = 256 };

static uint32_t read16(const uint8_t *b, size_t at) { return b[at] | (uint32_t)b[at + 1] << 8; }
static uint32_t read32(const uint8_t *b, size_t at) { return read16(b, at) | read16(b, at + 2) << 16; }

/* RFC 1071, the carry brought round after every word. */
static uint32_t check_word(const uint8_t *b, size_t length) {
    uint32_t sum = 0;
    for (size_t i = 0; i < length; i += 2) {
        sum += b[i] + (i + 1 < length ? 256u * b[i + 1] : 0);
        if (sum > 65535) sum -= 65535;
    }
    return 65535 - sum;
}

/* The entries that each state stores: -1 for nothing stored here. */
typedef struct {
    uint32_t fallback[MOST_STATES];
    int32_t stored[MOST_STATES][MOST_CLASSES];
} rows;

static uint32_t classes_wrong(const uint8_t *class_of, uint32_t k) {
    int seen[256] = {0};
    for (int x = 0; x < 256; x++) {
        if (class_of[x] >= k) return 1;
        seen[class_of[x]] = 1;
    }
    for (uint32_t c = 0; c < k; c++)
        if (!seen[c]) return 1;
    return 0;
}

/* The steps from s to its root, or -1 where its chain does not end. */
static int chain_length(const uint32_t *fallback, uint32_t n, uint32_t s) {
    uint32_t steps = 0;
    for (; fallback[s] != NONE; s = fallback[s])
        if (++steps > n) return -1;
    return (int)steps;
}

static uint32_t look_up(const rows *r, uint32_t s, uint32_t c, uint32_t *hops) {
    *hops = 0;
    while (r->stored[s][c] < 0) {
        s = r->fallback[s];
        ++*hops;
    }
    return (uint32_t)r->stored[s][c];
}

static uint32_t depth_of(const rows *r, uint32_t n) {
    uint32_t depth = 0;
    for (uint32_t s = 0; s < n; s++) {
        uint32_t l = (uint32_t)chain_length(r->fallback, n, s);
        if (l > depth) depth = l;
    }
    return depth;
}

static uint32_t worst_of(const rows *r, uint32_t n, const uint8_t *class_of) {
    uint32_t worst = 0, hops;
    for (uint32_t s = 0; s < n; s++)
        for (int x = 0; x < 256; x++) {
            look_up(r, s, class_of[x], &hops);
            if (hops > worst) worst = hops;
        }
    return worst;
}

uint32_t first_edition_judge_image(const uint8_t *b, size_t length) {
    if (length < 24) return 1;
    uint64_t n = read16(b, 0), k = read16(b, 2), m = read32(b, 8);
    if (n < 1 || n > MOST_STATES || k < 1 || k > MOST_CLASSES || m < k || m > n * k) return 2;
    if (length != 280 + 6 * n + 4 * m) return 3;
    if (read32(b, length - 8) != length || read32(b, length - 12) != 4 * m + 12) return 4;
    if (read16(b, length - 2) != check_word(b, length - 2)) return 5;
    if (read16(b, 4) >= n) return 6;
    if (classes_wrong(b + 12, (uint32_t)k)) return 7;
    size_t records = 268 + 2 * n, entries = records + 4 * n;
    uint64_t sum = 0;
    for (size_t s = 0; s < n; s++) {
        uint32_t d = read16(b, records + 4 * s), count = read16(b, records + 4 * s + 2);
        if ((d != NONE && d >= n) || count > k || (d == NONE && count != k)) return 8;
        sum += count;
    }
    if (sum != m) return 8;
    size_t at = entries;
    for (size_t s = 0; s < n; s++) {
        uint32_t count = read16(b, records + 4 * s + 2);
        for (uint32_t j = 0; j < count; j++)
            if (read16(b, at + 4 * j) >= k || (j > 0 && read16(b, at + 4 * j) <= read16(b, at + 4 * j - 4))) return 9;
        at += 4 * count;
    }
    for (size_t j = 0; j < m; j++)
        if (read16(b, entries + 4 * j + 2) >= n) return 10;
    rows *r = malloc(sizeof *r);
    memset(r->stored, 255, sizeof r->stored);
    at = entries;
    for (size_t s = 0; s < n; s++) {
        uint32_t count = read16(b, records + 4 * s + 2);
        r->fallback[s] = read16(b, records + 4 * s);
        for (uint32_t j = 0; j < count; j++, at += 4) r->stored[s][read16(b, at)] = (int32_t)read16(b, at + 2);
    }
    uint32_t refused = 0;
    for (uint32_t s = 0; s < n && !refused; s++)
        if (chain_length(r->fallback, (uint32_t)n, s) < 0) refused = 11;
    for (uint32_t s = 0; s < n && !refused; s++)
        for (uint32_t c = 0; c < k && !refused; c++) {
            uint32_t hops;
            if (r->fallback[s] != NONE && r->stored[s][c] >= 0 && look_up(r, r->fallback[s], c, &hops) == (uint32_t)r->stored[s][c]) refused = 12;
        }
    if (!refused && (read16(b, 6) != depth_of(r, (uint32_t)n) || read16(b, length - 4) != worst_of(r, (uint32_t)n, b + 12))) refused = 13;
    free(r);
    return refused;
}
