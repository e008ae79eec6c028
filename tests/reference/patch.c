/* The patches of request C-20, from its text. The patch is tested by itself as far as 10; then the defaults of all states, patched, for a chain that returns; then the applied image is put together in a new block with the depth and
 * the worst that the patch says, and the judge of images says the rest. A patched scan is the scan of that block. */
#include <stdlib.h>
#include <string.h>

#include "editions.h"
#include "reference.h"

enum { NONE = 65535, MOST_STATES = 512, MOST_LISTED = 64 };

static uint32_t long_at(const uint8_t *b, size_t at) { return word_at(b, at) | word_at(b, at + 2) << 16; }

static uint8_t *put16(uint8_t *p, uint32_t x) {
    p[0] = x & 255;
    p[1] = x >> 8 & 255;
    return p + 2;
}

static uint8_t *put32(uint8_t *p, uint32_t x) { return put16(put16(p, x & 65535), x >> 16); }

/* Of each state its default, how many entries it has and where they stand, be it in the image or in the patch. */
typedef struct {
    uint32_t n, fallback[MOST_STATES], count[MOST_STATES];
    const uint8_t *entries[MOST_STATES];
} view;

/* One number for a patch under 22 bytes, p out of range, a length that p and q do not give, a wrong length or distance back in the trailer, a differing check word. q is any number of 32 bits. */
static int shape_wrong(const uint8_t *patch, size_t length) {
    if (length < 22) return 1;
    uint64_t p = word_at(patch, 0), q = long_at(patch, 6);
    if (p < 1 || p > MOST_LISTED) return 1;
    if (length != 22 + 6 * p + 4 * q) return 1;
    if (long_at(patch, length - 12) != 4 * q + 12 || long_at(patch, length - 8) != length) return 1;
    return word_at(patch, length - 2) != reference_check_word(patch, length - 2);
}

/* The states that the patch lists rise, and each is below n. */
static int states_wrong(const uint8_t *patch, uint32_t n) {
    for (uint32_t i = 0; i < word_at(patch, 0); i++) {
        uint32_t s = word_at(patch, 10 + 2 * (size_t)i);
        if (s >= n || (i > 0 && s <= word_at(patch, 8 + 2 * (size_t)i))) return 1;
    }
    return 0;
}

/* The records of the patch: each as in an image, and their counts sum to q. */
static int records_wrong(const uint8_t *patch, uint32_t n, uint32_t k) {
    size_t p = word_at(patch, 0);
    uint64_t sum = 0;
    for (size_t i = 0; i < p; i++) {
        uint32_t fallback = word_at(patch, 10 + 2 * p + 4 * i), count = word_at(patch, 10 + 2 * p + 4 * i + 2);
        if (fallback != NONE && fallback >= n) return 1;
        if (count > k || (fallback == NONE && count != k)) return 1;
        sum += count;
    }
    return sum != long_at(patch, 6);
}

/* Which entries each state has, of an image that is accepted and a patch whose records are right. */
static void open_view(const uint8_t *image, const uint8_t *patch, view *v) {
    v->n = states_of(image);
    const uint8_t *record = image + 268 + 2 * (size_t)v->n + 2 * (size_t)labels_behind(image, 268), *entry = record + 4 * (size_t)v->n;
    for (uint32_t s = 0; s < v->n; s++, record += 4) {
        v->fallback[s] = word_at(record, 0);
        v->count[s] = word_at(record, 2);
        v->entries[s] = entry;
        entry += 4 * (size_t)v->count[s];
    }
    size_t p = word_at(patch, 0);
    entry = patch + 10 + 6 * p;
    for (size_t i = 0; i < p; i++) {
        uint32_t s = word_at(patch, 10 + 2 * i);
        v->fallback[s] = word_at(patch, 10 + 2 * p + 4 * i);
        v->count[s] = word_at(patch, 10 + 2 * p + 4 * i + 2);
        v->entries[s] = entry;
        entry += 4 * (size_t)v->count[s];
    }
}

/* 9, over all entries of the patch, and only then 10. */
static uint32_t entries_wrong(const uint8_t *patch, const view *v, uint32_t k) {
    for (size_t i = 0; i < word_at(patch, 0); i++) {
        uint32_t s = word_at(patch, 10 + 2 * i);
        for (size_t j = 0; j < v->count[s]; j++) {
            uint32_t class = word_at(v->entries[s], 4 * j);
            if (class >= k || (j > 0 && class <= word_at(v->entries[s], 4 * j - 4))) return 9;
        }
    }
    for (size_t i = 0; i < word_at(patch, 0); i++) {
        uint32_t s = word_at(patch, 10 + 2 * i);
        for (size_t j = 0; j < v->count[s]; j++)
            if (word_at(v->entries[s], 4 * j + 2) >= v->n) return 10;
    }
    return 0;
}

/* Whether the chain of some state, listed or not, does not end: it has more than n steps. */
static int returns(const view *v) {
    for (uint32_t first = 0; first < v->n; first++) {
        uint32_t steps = 0;
        for (uint32_t s = first; v->fallback[s] != NONE; s = v->fallback[s])
            if (++steps > v->n) return 1;
    }
    return 0;
}

/* The applied image in a new block, which the caller frees: depth and worst are those that the patch says. */
static uint8_t *applied(const uint8_t *image, const uint8_t *patch, const view *v, size_t *length) {
    size_t same = 268 + 2 * (size_t)v->n + 2 * (size_t)labels_behind(image, 268);
    uint32_t m = 0;
    for (uint32_t s = 0; s < v->n; s++) m += v->count[s];
    *length = same + 4 * (size_t)v->n + 4 * (size_t)m + 12;
    uint8_t *result = malloc(*length), *p = result + same;
    /* The first word, k, the start state, classes and labels stay. */
    memcpy(result, image, same);
    put16(result + 6, word_at(patch, 2));
    put32(result + 8, m);
    for (uint32_t s = 0; s < v->n; s++) p = put16(put16(p, v->fallback[s]), v->count[s]);
    for (uint32_t s = 0; s < v->n; s++) {
        memcpy(p, v->entries[s], 4 * (size_t)v->count[s]);
        p += 4 * (size_t)v->count[s];
    }
    p = put16(put32(put32(p, 4 * m + 12), (uint32_t)*length), word_at(patch, 4));
    put16(p, reference_check_word(result, *length - 2));
    return result;
}

/* All grounds of an image and a patch in their order; where there is none, the applied image in a new block. */
static uint32_t patched(const uint8_t *image, size_t length, const uint8_t *patch, size_t patch_length, uint8_t **result, size_t *result_length) {
    view v;
    uint32_t refused = reference_judge_image(image, length);
    if (refused) return refused;
    if (shape_wrong(patch, patch_length)) return 22;
    if (word_at(patch, patch_length - 4) != word_at(image, length - 2)) return 23;
    if (states_wrong(patch, states_of(image))) return 24;
    if (records_wrong(patch, states_of(image), word_at(image, 2))) return 8;
    open_view(image, patch, &v);
    refused = entries_wrong(patch, &v, word_at(image, 2));
    if (refused) return refused;
    if (returns(&v)) return 11;
    *result = applied(image, patch, &v, result_length);
    refused = reference_judge_image(*result, *result_length);
    if (refused) free(*result);
    return refused;
}

uint32_t reference_judge_patch(const uint8_t *image, size_t length, const uint8_t *patch, size_t patch_length) {
    uint8_t *result;
    size_t result_length;
    uint32_t refused = patched(image, length, patch, patch_length, &result, &result_length);
    if (!refused) free(result);
    return refused;
}

reference_built reference_apply(const uint8_t *image, size_t length, const uint8_t *patch, size_t patch_length, uint8_t *room, size_t room_length) {
    uint8_t *result;
    size_t result_length;
    reference_built answer = {patched(image, length, patch, patch_length, &result, &result_length), 0};
    if (answer.refused) return answer;
    if (room_length < result_length) answer.refused = 16;
    else memcpy(room, result, answer.length = (uint32_t)result_length);
    free(result);
    return answer;
}

reference_scanned reference_scan_patched(const uint8_t *image, size_t length, const uint8_t *patch, size_t patch_length, uint32_t state, const uint8_t *payload, size_t payload_length, uint8_t *room,
                                         size_t room_length) {
    uint8_t *result;
    size_t result_length;
    reference_scanned answer = {patched(image, length, patch, patch_length, &result, &result_length), 0, 0, 0, 0};
    if (answer.refused) return answer;
    answer = reference_scan(result, result_length, state, payload, payload_length, room, room_length);
    free(result);
    return answer;
}
