/* Rewrite of an accepted image in C. A default that shares fewer than two classes with its state is one whose state stores all classes or all but one: it goes, and what was missing is looked up. Everything else is copied,
 * and the worst found anew, class by class over the states, each after its default, as the judge does. */
#include "plain.h"

/* The parts of an image that is read. */
typedef struct {
    const uint8_t *records, *begins[513];
    size_t n, k;
} parts;

/* What the chain of a state gives for a class. */
static uint32_t look_up(const parts *p, size_t s, size_t class) {
    for (;; s = plain_number16(p->records + 4 * s))
        for (const uint8_t *entry = p->begins[s]; entry < p->begins[s + 1]; entry += 4)
            if (plain_number16(entry) == class) return plain_number16(entry + 2);
}

/* Writes the whole row of a state that stores all classes or all but one; answers the place behind it. */
static uint8_t *put_whole(const parts *p, size_t s, uint8_t *room) {
    const uint8_t *entry = p->begins[s];
    for (size_t class = 0; class < p->k; class++, room += 4) {
        if (entry < p->begins[s + 1] && plain_number16(entry) == class) {
            memcpy(room, entry, 4);
            entry += 4;
        } else {
            plain_put32(room, (uint32_t)class | look_up(p, s, class) << 16);
        }
    }
    return room;
}

/* The largest hops over all states and classes of the records and entries in the room. */
static uint32_t worst_of(const uint8_t *records, const uint8_t *entries, const plain_chains *chains, size_t n, size_t k) {
    const uint8_t *begins[513], *at[512], *end[512];
    uint16_t waiting[512], hops[513], most = 0;
    begins[0] = entries;
    for (size_t s = 0; s < n; s++) begins[s + 1] = begins[s] + 4 * plain_number16(records + 4 * s + 2);
    for (size_t i = 0; i < n; i++) {
        at[i] = begins[chains->order[i]];
        end[i] = begins[chains->order[i] + 1];
        waiting[i] = at[i] < end[i] ? plain_number16(at[i]) : 65535;
    }
    for (size_t class = 0; class < k; class++)
        for (size_t i = 0; i < n; i++) {
            if (waiting[i] == class) {
                at[i] += 4;
                waiting[i] = at[i] < end[i] ? plain_number16(at[i]) : 65535;
                hops[i] = 0;
            } else {
                hops[i] = (uint16_t)(hops[chains->fallback[i]] + 1);
                most = hops[i] > most ? hops[i] : most;
            }
        }
    return most;
}

kamordast_built plain_rewrite(const uint8_t *image, size_t length, uint8_t *room, size_t room_length) {
    size_t n = plain_states(image), k = plain_number16(image + 2), m = plain_number32(image + 8), added = 0;
    parts p = {image + length - 12 - 4 * m - 4 * n, {0}, n, k};
    uint16_t defaults[512];
    plain_chains chains;
    p.begins[0] = p.records + 4 * n;
    for (size_t s = 0; s < n; s++) {
        size_t count = plain_number16(p.records + 4 * s + 2);
        defaults[s] = plain_number16(p.records + 4 * s);
        p.begins[s + 1] = p.begins[s] + 4 * count;
        if (count + 2 <= k) continue;
        defaults[s] = 65535;
        added += k - count;
    }
    size_t whole = length + 4 * added;
    if (room_length < whole) return (kamordast_built){16, 0};
    plain_order(defaults, n, &chains);
    memcpy(room, image, (size_t)(p.records - image));
    plain_put16(room + 6, chains.depth);
    plain_put32(room + 8, (uint32_t)(m + added));
    uint8_t *records = room + (p.records - image), *entries = records + 4 * n, *entry = entries;
    for (size_t s = 0; s < n; s++) {
        size_t bytes = (size_t)(p.begins[s + 1] - p.begins[s]);
        plain_put16(records + 4 * s, defaults[s]);
        plain_put16(records + 4 * s + 2, (uint32_t)(defaults[s] == 65535 ? k : bytes / 4));
        if (defaults[s] == 65535) {
            entry = put_whole(&p, s, entry);
        } else {
            memcpy(entry, p.begins[s], bytes);
            entry += bytes;
        }
    }
    plain_put32(entry, (uint32_t)(4 * (m + added) + 12));
    plain_put32(entry + 4, (uint32_t)whole);
    plain_put16(entry + 8, worst_of(records, entries, &chains, n, k));
    plain_put16(entry + 10, plain_check_word(room, whole - 2));
    return (kamordast_built){0, (uint32_t)whole};
}
