/* The plain C beside the archive on small tables and images of both editions, sound ones and damaged ones: both must accept or refuse alike, with the same result. */
#include <stdio.h>
#include <string.h>

#include "patches.h"
#include "plain.h"
#include "support.h"

enum { CASES = 10000, ROOM = 8192 };

static uint8_t table[ROOM], image[ROOM], list[64], strings[ROOM], by_archive[ROOM], by_c[ROOM];
static uint32_t grounds[29];

/* Plain C has a function for each edition; which it is says the first word, and what is too short for one is refused by either. */
static int second(const uint8_t *bytes, size_t length) { return length >= 2 && edition_in(bytes) == 2; }

#define IN_EDITION(operation, bytes, length) (second(bytes, length) ? plain_second_##operation : plain_##operation)

/* Two answers with their rooms are one. */
static void same(const char *operation, kamordast_built a, kamordast_built b, uint32_t number) {
    if (a.refused != b.refused || a.length != b.length || memcmp(by_archive, by_c, ROOM)) fail(operation, number);
    grounds[a.refused]++;
}

/* The archive's walk is C's where the table is accepted, and is refused by the judge's number where not: in C what judges and what walks are two functions. */
static void same_walk(size_t length, uint32_t state, const uint8_t *payload, size_t bytes, size_t room_length, uint32_t number) {
    kamordast_scanned a = kamordast_walk(table, length, state, payload, bytes, by_archive, room_length), b = {IN_EDITION(judge_table, table, length)(table, length), 0, 0, 0, 0};
    if (!b.refused && state >= states_in(table)) b.refused = 14;
    if (!b.refused) b = IN_EDITION(walk, table, length)(table, length, state, payload, bytes, by_c, room_length);
    if (memcmp(&a, &b, sizeof a) || memcmp(by_archive, by_c, ROOM)) fail("walk", number);
    grounds[a.refused]++;
}

/* The same of the rewrite and the moves: in C an accepted image is taken. */
static void same_image(size_t length, size_t room_length, uint32_t number) {
    uint32_t refused = IN_EDITION(judge_image, image, length)(image, length);
    same("rewrite", kamordast_rewrite(image, length, by_archive, room_length), refused ? (kamordast_built){refused, 0} : plain_rewrite(image, length, by_c, room_length), number);
    same("forward", kamordast_forward(image, length, by_archive, room_length), refused ? (kamordast_built){refused, 0} : plain_forward(image, length, by_c, room_length), number);
    same("back", kamordast_back(image, length, by_archive, room_length), refused ? (kamordast_built){refused, 0} : plain_back(image, length, by_c, room_length), number);
}

/* The image of a sound table with a list, also where a default is not worth its hops: write refuses those, and the operations on images take them. */
static kamordast_built written(const uint8_t *sound, size_t length, const uint8_t *defaults, uint8_t *room) {
    uint16_t falls[512];
    plain_chains chains;
    for (uint32_t s = 0; s < states_in(sound); s++) falls[s] = (uint16_t)number16(defaults, 2 * s);
    if (!plain_order(falls, states_in(sound), &chains)) return (kamordast_built){11, 0};
    return IN_EDITION(image, sound, length)(sound, length, falls, &chains, room, ROOM);
}

/* Reduce of a table, with its labels made few so that some states are alike; in C an accepted table is taken. */
static void same_reduced(size_t length, size_t room_length, uint32_t number) {
    uint32_t refused = IN_EDITION(judge_table, table, length)(table, length);
    if (!refused && edition_in(table) == 1)
        for (uint32_t s = 0; s < states_in(table); s++) set16(table, 262 + 2 * s, number16(table, 262 + 2 * s) % 2);
    same("reduce", kamordast_reduce(table, length, by_archive, room_length), refused ? (kamordast_built){refused, 0} : plain_reduce(table, length, by_c, room_length), number);
}

/* Strings of a word list of a few letters, which may be cut, have wrong labels or counts. */
static void same_strings(size_t room_length, uint32_t number) {
    uint32_t count = below(20), letters = 1 + below(3);
    size_t length = 2;
    set16(strings, 0, count + (below(9) == 0));
    for (uint32_t i = 0; i < count; i++) {
        uint32_t size = below(40) ? 1 + below(below(4) ? 6 : 32) : below(36);
        set16(strings, length, below(30) ? 1 + i * 7 % 20 : below(8));
        set16(strings, length + 2, size);
        length += 4;
        for (; size; size--) strings[length++] = (uint8_t)('a' + below(letters));
    }
    length -= below(9) == 0;
    same("strings", kamordast_strings(strings, length, by_archive, room_length), plain_strings(strings, length, number % 2, by_c, room_length), number);
}

/* Changes a few bytes between two places, mostly to small numbers. */
static void damage(uint8_t *bytes, size_t from, size_t to) {
    for (uint32_t times = below(4); times; times--) bytes[from + below((uint32_t)(to - from))] = (uint8_t)(below(3) ? below(6) : below(256));
}

/* A patch that lists some states of an accepted image, with a number or two of theirs made others, and damaged at times; in C an accepted image and an accepted patch are taken. */
static void same_patched(size_t length, const uint8_t *payload, size_t room_length, uint32_t number) {
    static parts listing;
    static uint8_t patch[LONGEST_PATCH];
    uint32_t n = states_in(image), k = number16(image, 2);
    listing.p = 0;
    for (uint32_t times = 1 + below(3); times; times--) {
        listed *l = list_state(&listing, image, below(n));
        if (below(3) == 0 && l->count) l->next[below(l->count)] = below(n + (below(8) == 0));
        if (below(3) == 0 && l->fallback != 65535 && l->count) l->count--;
        if (below(6) == 0) l->fallback = below(n);
        if (below(9) == 0 && l->count) l->class[below(l->count)] = below(k);
    }
    find_costs(&listing, image);
    listing.depth += below(12) == 0;
    size_t patch_length = put_patch(&listing, image, length, patch);
    if (below(6) == 0) damage(patch, 0, patch_length);
    if (below(9)) mend_check_word(patch, patch_length);
    patch_length -= below(20) == 0;
    uint32_t refused = plain_judge_patch(image, length, patch, patch_length), state = below(n);
    same("judge a patch", (kamordast_built){kamordast_judge_patch(image, length, patch, patch_length), 0}, (kamordast_built){refused, 0}, number);
    same("apply", kamordast_apply(image, length, patch, patch_length, by_archive, room_length),
         refused ? (kamordast_built){refused, 0} : plain_apply(image, length, patch, patch_length, by_c, room_length), number);
    kamordast_scanned a = kamordast_scan_patched(image, length, patch, patch_length, state, payload, 64, by_archive, room_length % 400), b = {refused, 0, 0, 0, 0};
    if (!refused) b = IN_EDITION(scan_patched, image, length)(image, length, patch, patch_length, state, payload, 64, by_c, room_length % 400);
    if (memcmp(&a, &b, sizeof a) || memcmp(by_archive, by_c, ROOM)) fail("the patched scan", number);
}

int main(void) {
    seed(3);
    for (uint32_t number = 0; number < CASES; number++) {
        uint32_t n = 1 + below(6), k = 1 + below(9), bound = below(8), alike = 100 + below(157);
        size_t length = either_edition(table, number % 3 ? make_table(table, n, k, alike) : make_levels(table, n, k, alike, 1 + below(n), 1 + number % 2));
        size_t list_length = 2 * n, room_length = below(8) ? ROOM : below(700);
        make_defaults(list, n, 200);
        if (below(4) == 0) set16(list, 2 * below(n), below(n));
        kamordast_built built = written(table, length, list, image);
        if (below(3) == 0) damage(table, below(8) ? 262 : 0, length);
        if (below(9) == 0) {
            length -= below(2);
            list_length -= below(2);
        }
        memset(by_archive, 0, ROOM);
        memset(by_c, 0, ROOM);
        same("judge a table", (kamordast_built){kamordast_judge_table(table, length), 0}, (kamordast_built){IN_EDITION(judge_table, table, length)(table, length), 0}, number);
        same_strings(room_length, number);
        same_reduced(length, room_length, number);
        for (uint32_t order = 0; order <= 4; order++)
            same("compact", kamordast_compact_in_order(table, length, order, (uint16_t)bound, by_archive, room_length),
                 IN_EDITION(compact, table, length)(table, length, order, bound, number % 2, by_c, room_length), number);
        uint8_t payload[64];
        for (size_t i = 0; i < sizeof payload; i++) payload[i] = (uint8_t)below(256);
        same_walk(length, below(n + 1), payload, below(65), room_length % 400, number);
        same("write", kamordast_write(table, length, list, list_length, by_archive, room_length), IN_EDITION(write, table, length)(table, length, list, list_length, by_c, room_length),
             number);
        if (built.refused) continue;
        if (below(3)) damage(image, below(8) ? 268 : 0, built.length - (below(8) ? 12 : 0));
        if (below(9) == 0) damage(image, 6, 8); /* depth */
        if (below(9) == 0) damage(image, built.length - 4, built.length - 2); /* worst */
        if (below(20) == 0) image[1] ^= 128; /* the other edition */
        if (below(8)) mend_check_word(image, built.length);
        uint32_t judged = IN_EDITION(judge_image, image, built.length)(image, built.length);
        same("judge an image", (kamordast_built){kamordast_judge_image(image, built.length), 0}, (kamordast_built){judged, 0}, number);
        same("expand", kamordast_expand(image, built.length, by_archive, room_length), IN_EDITION(expand, image, built.length)(image, built.length, by_c, room_length), number);
        same_image(built.length, room_length, number);
        if (judged) continue;
        uint32_t state = below(states_in(image));
        kamordast_scanned a = kamordast_scan(image, built.length, state, payload, 64, by_archive, room_length % 400);
        kamordast_scanned b = IN_EDITION(scan, image, built.length)(image, built.length, state, payload, 64, by_c, room_length % 400);
        if (memcmp(&a, &b, sizeof a) || memcmp(by_archive, by_c, ROOM)) fail("scan", number);
        same_patched(built.length, payload, room_length, number);
    }
    printf("plain C and the archive agree on %u small cases; answers by number:", (unsigned)CASES);
    for (uint32_t ground = 0; ground < 29; ground++)
        if (grounds[ground]) printf(" %u: %u", (unsigned)ground, (unsigned)grounds[ground]);
    printf("\n");
    return 0;
}
