#include "patches.h"

#include <string.h>

#include "support.h"

/* Reads what an accepted image has for a state. */
static void read_state(listed *l, const uint8_t *image, uint32_t s) {
    size_t records = records_in(image), entry = records + 4 * (size_t)states_in(image);
    for (uint32_t before = 0; before < s; before++) entry += 4 * (size_t)number16(image, records + 4 * (size_t)before + 2);
    l->state = s;
    l->fallback = number16(image, records + 4 * (size_t)s);
    l->count = number16(image, records + 4 * (size_t)s + 2);
    for (uint32_t j = 0; j < l->count; j++, entry += 4) {
        l->class[j] = number16(image, entry);
        l->next[j] = number16(image, entry + 2);
    }
}

listed *list_state(parts *x, const uint8_t *image, uint32_t s) {
    uint32_t i = 0;
    while (i < x->p && x->list[i].state < s) i++;
    if (i == x->p || x->list[i].state != s) {
        if (x->p == MOST_LISTED) fail("more states than a test lists", s);
        memmove(x->list + i + 1, x->list + i, (x->p++ - i) * sizeof x->list[0]);
    }
    read_state(&x->list[i], image, s);
    return &x->list[i];
}

/* Whether two listed states have the same record and entries. */
static int same_state(const listed *a, const listed *b) {
    return a->fallback == b->fallback && a->count == b->count && !memcmp(a->class, b->class, a->count * sizeof a->class[0]) && !memcmp(a->next, b->next, a->count * sizeof a->next[0]);
}

uint32_t list_differences(parts *x, const uint8_t *image, const uint8_t *target) {
    static listed before, after;
    uint32_t found = 0;
    for (uint32_t s = 0; s < states_in(image); s++) {
        read_state(&before, image, s);
        read_state(&after, target, s);
        if (same_state(&before, &after)) continue;
        if (++found <= KAMORDAST_MOST_PATCHED) list_state(x, target, s);
    }
    return found;
}

void find_costs(parts *x, const uint8_t *image) {
    static listed all[512];
    static uint8_t stores[512][256];
    uint32_t n = states_in(image), k = number16(image, 2);
    for (uint32_t s = 0; s < n; s++) read_state(&all[s], image, s);
    for (uint32_t i = 0; i < x->p; i++) all[x->list[i].state] = x->list[i];
    memset(stores, 0, sizeof stores);
    for (uint32_t s = 0; s < n; s++)
        for (uint32_t j = 0; j < all[s].count; j++) stores[s][all[s].class[j]] = 1;
    x->depth = x->worst = 0;
    for (uint32_t s = 0; s < n; s++) {
        uint32_t steps = 0;
        for (uint32_t at = s; all[at].fallback != 65535 && steps < n; at = all[at].fallback) steps++;
        if (steps > x->depth) x->depth = steps;
        for (uint32_t c = 0; c < k; c++) {
            uint32_t hops = 0;
            for (uint32_t at = s; !stores[at][c] && all[at].fallback != 65535 && hops < n; at = all[at].fallback) hops++;
            if (hops > x->worst) x->worst = hops;
        }
    }
}

void mend_trailer(uint8_t *patch, size_t length) {
    set32(patch, length - 12, 4 * number32(patch, 6) + 12);
    set32(patch, length - 8, (uint32_t)length);
    mend_check_word(patch, length);
}

size_t put_patch(const parts *x, const uint8_t *image, size_t image_length, uint8_t *patch) {
    uint32_t q = 0;
    set16(patch, 0, x->p);
    set16(patch, 2, x->depth);
    set16(patch, 4, x->worst);
    for (uint32_t i = 0; i < x->p; i++) {
        set16(patch, number_at(i), x->list[i].state);
        set16(patch, record_at(x->p, i), x->list[i].fallback);
        set16(patch, record_at(x->p, i) + 2, x->list[i].count);
        for (uint32_t j = 0; j < x->list[i].count; j++, q++) {
            set16(patch, entry_at(x->p, q), x->list[i].class[j]);
            set16(patch, entry_at(x->p, q) + 2, x->list[i].next[j]);
        }
    }
    set32(patch, 6, q);
    size_t length = entry_at(x->p, q) + 12;
    memcpy(patch + length - 4, image + image_length - 2, 2);
    mend_trailer(patch, length);
    return length;
}
