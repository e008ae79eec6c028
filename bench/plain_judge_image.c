/* Judging an image in C: grounds 1 to 13, in edition 2 with 19 before 3 and behind 7. Grounds 12 and 13 go class by class over the states, each after its default, so that every entry is read once
 * and every pair of state and class is touched once. */
#include "plain.h"

/* Ground 8: a record is wrong, or the counts do not sum to m. */
static int records_bad(const uint8_t *records, size_t n, size_t k, size_t m) {
    size_t sum = 0;
    int bad = 0;
    for (size_t s = 0; s < n; s++) {
        size_t d = plain_number16(records + 4 * s), count = plain_number16(records + 4 * s + 2);
        bad |= count > k || (d == 65535 ? count != k : d >= n);
        sum += count;
    }
    return bad || sum != m;
}

/* Ground 9: an entry's class is not below k, or not above the one before in its state. */
static int entry_classes_bad(const uint8_t *records, const uint8_t *entry, size_t n, size_t k) {
    for (size_t s = 0; s < n; s++) {
        int32_t before = -1;
        for (size_t left = plain_number16(records + 4 * s + 2); left; left--, entry += 4) {
            int32_t class = plain_number16(entry);
            if (class <= before) return 1;
            before = class;
        }
        if (before >= (int32_t)k) return 1;
    }
    return 0;
}

/* Ground 10: a next state is not below n. */
static int next_states_bad(const uint8_t *entries, size_t m, size_t n) {
    uint32_t largest = 0;
    for (size_t j = 0; j < m; j++) {
        uint32_t next = plain_number32(entries + 4 * j) >> 16;
        largest = next > largest ? next : largest;
    }
    return largest >= n;
}

/* Every array but the two that are handed in goes by the states' places. */
uint32_t plain_sweep(const uint8_t *const *begins, const uint8_t *const *ends, const plain_chains *chains, size_t n, size_t k, uint32_t *worst) {
    const uint8_t *at[512], *end[512];
    uint16_t waiting[512], to[513], hops[513];
    uint16_t most = 0;
    for (size_t i = 0; i < n; i++) {
        at[i] = begins[chains->order[i]];
        end[i] = ends[chains->order[i]];
        waiting[i] = at[i] < end[i] ? plain_number16(at[i]) : 65535;
    }
    to[n] = 65535; /* what a root falls to gives no state */
    for (size_t class = 0; class < k; class++)
        for (size_t i = 0; i < n; i++) {
            size_t fallback = chains->fallback[i];
            if (waiting[i] == class) {
                uint16_t next = plain_number16(at[i] + 2);
                if (to[fallback] == next) return 12;
                at[i] += 4;
                waiting[i] = at[i] < end[i] ? plain_number16(at[i]) : 65535;
                to[i] = next;
                hops[i] = 0;
            } else {
                to[i] = to[fallback];
                hops[i] = (uint16_t)(hops[fallback] + 1);
                most = hops[i] > most ? hops[i] : most;
            }
        }
    *worst = most;
    return 0;
}

/* The sweep of an image, whose entries stand one state's behind the other's. */
static uint32_t sweep(const uint8_t *records, const uint8_t *entries, const plain_chains *chains, size_t n, size_t k, uint32_t *worst) {
    const uint8_t *begins[513];
    begins[0] = entries;
    for (size_t s = 0; s < n; s++) begins[s + 1] = begins[s] + 4 * plain_number16(records + 4 * s + 2);
    return plain_sweep(begins, begins + 1, chains, n, k, worst);
}

EACH_EDITION uint32_t judge_image(const uint8_t *image, size_t length, int second) {
    if (length < 24) return 1;
    size_t n = second ? plain_states(image) : plain_number16(image), k = plain_number16(image + 2), m = plain_number32(image + 8);
    if (n < 1 || n > 512 || k < 1 || k > 256 || m < k || m > n * k) return 2;
    if (second && length < 268 + 2 * n) return 3;
    long labels = second ? plain_labels(image + 268, n) : 0;
    if (second && labels < 0) return 19;
    if (length != 280 + 6 * n + 2 * (size_t)labels + 4 * m) return 3;
    if (plain_number32(image + length - 8) != length || plain_number32(image + length - 12) != 4 * m + 12) return 4;
    if (plain_number16(image + length - 2) != plain_check_word(image, length - 2)) return 5;
    if (plain_number16(image + 4) >= n) return 6;
    if (plain_classes_bad(image + 12, k)) return 7;
    if (second && plain_labels_bad(image + 268, n)) return 19;
    const uint8_t *records = image + 268 + 2 * n + 2 * labels, *entries = records + 4 * n;
    if (records_bad(records, n, k, m)) return 8;
    if (entry_classes_bad(records, entries, n, k)) return 9;
    if (next_states_bad(entries, m, n)) return 10;
    uint16_t defaults[512];
    plain_chains chains;
    uint32_t worst;
    for (size_t s = 0; s < n; s++) defaults[s] = plain_number16(records + 4 * s);
    if (!plain_order(defaults, n, &chains)) return 11;
    if (sweep(records, entries, &chains, n, k, &worst)) return 12;
    return plain_number16(image + 6) != chains.depth || plain_number16(image + length - 4) != worst ? 13 : 0;
}

uint32_t plain_judge_image(const uint8_t *image, size_t length) { return judge_image(image, length, 0); }
uint32_t plain_second_judge_image(const uint8_t *image, size_t length) { return judge_image(image, length, 1); }
