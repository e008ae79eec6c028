/* Accepted patches against the independent reading: what they make is the target that they were made for, byte for byte, in every room, and the patched scan is the scan of it. Images of both editions at random, with lists of defaults that are not
 * worth their hops and compacted in all orders; patches from one order to another, of states as they were, of states made anew entry by entry, of the largest images; and damaged ones. */
#include <stdio.h>
#include <string.h>

#include "patched.h"
#include "reference/reference.h"

static uint64_t to_targets, to_itself, entry_by_entry, editions[2], weak, across_orders;

/* The patch at hand is accepted and makes its target. */
static void reaches_target(size_t length, size_t patch_length) {
    if (applies(length, patch_length) != target_length || memcmp(applied, target, target_length)) fail("the applied image is not the target", cases);
    to_targets++;
    to_itself += target_length == length && !memcmp(target, image, length);
    editions[edition_in(image) - 1]++;
    weak += unworthy_in(image) || unworthy_in(target);
}

static void random_patches(int rounds) {
    while (rounds--) {
        uint32_t large = rounds % 120 == 0;
        size_t length = some_image(large ? 512 - below(400) : 1 + below(12), large ? 256 - below(200) : 1 + below(7)), patch_length = some_patch(length);
        if (patch_length) reaches_target(length, patch_length);
    }
}

/* A listed state is made another: a root with any row, one default more or less, an entry more, less or other. What comes of it need not be accepted. */
static void mutate(listed *l, uint32_t n, uint32_t k) {
    switch (below(5)) {
    case 0:
        l->fallback = 65535;
        l->count = k;
        for (uint32_t c = 0; c < k; c++) l->class[c] = c;
        for (uint32_t c = 0; c < k; c++) l->next[c] = below(n);
        break;
    case 1: l->fallback = below(n); break;
    case 2:
        if (!l->count || l->fallback == 65535) break;
        l->count--;
        break;
    case 3:
        if (l->count == k) break;
        l->class[l->count] = l->count ? l->class[l->count - 1] + 1 : below(k);
        l->next[l->count] = below(n);
        if (l->class[l->count] < k) l->count++;
        break;
    default:
        if (l->count) l->next[below(l->count)] = below(n);
    }
}

/* Patches made state by state and entry by entry, without a table behind them: they change what states mean that they do not list. */
static void by_entries(int rounds) {
    while (rounds--) {
        uint32_t n = 1 + below(9), k = 1 + below(5);
        size_t length = some_image(n, k);
        listing.p = 0;
        for (uint32_t times = 1 + below(4); times; times--) mutate(list_state(&listing, image, below(n)), n, k);
        find_costs(&listing, image);
        size_t patch_length = put_patch(&listing, image, length, patch);
        if (agrees(image, length, patch, patch_length)) continue;
        applies(length, patch_length);
        entry_by_entry++;
    }
}

/* From the image of a table in one order and with one bound to that in another: every payload is reported as before. */
static void orders(int rounds) {
    static uint8_t room[6 * KAMORDAST_MOST_LABELS * 64], walked[sizeof room];
    while (rounds--) {
        uint32_t n = 1 + below(40), from = below(4), to = below(4), bound = below(5), other_bound = below(5);
        size_t table_length = either_edition(table, below(2) ? make_table(table, n, 1 + below(9), 120 + below(137)) : make_levels(table, n, 1 + below(9), 200, n, 1 + below(5)));
        size_t length = reference_compact(table, table_length, from, bound, image, sizeof image).length;
        target_length = reference_compact(table, table_length, to, other_bound, target, sizeof target).length;
        listing.p = 0;
        if (!list_differences(&listing, image, target)) list_state(&listing, image, below(n));
        find_costs(&listing, image);
        size_t patch_length = put_patch(&listing, image, length, patch);
        reaches_target(length, patch_length);
        uint8_t payload[64];
        for (size_t i = 0; i < sizeof payload; i++) payload[i] = (uint8_t)below(256);
        kamordast_scanned a = kamordast_scan_patched(image, length, patch, patch_length, number16(table, 4), payload, sizeof payload, room, sizeof room);
        kamordast_scanned b = kamordast_walk(table, table_length, number16(table, 4), payload, sizeof payload, walked, sizeof walked);
        if (a.refused || b.refused || a.taken != b.taken || a.state != b.state || a.reports != b.reports || memcmp(room, walked, 6 * (size_t)a.reports)) fail("a table in two orders is reported otherwise", cases);
        across_orders++;
    }
}

/* The largest image, and the largest patch: 64 roots of 256 entries each, at the front, at the back and in between. */
static void largest(void) {
    static const uint32_t first[] = {0, 448, 200};
    for (int i = 0; i < 3; i++) {
        size_t table_length = make_table(table, 512, 256, 0);
        if (i == 2) table_length = make_second(table, table_length, 16);
        memset(defaults, 255, sizeof defaults);
        for (uint32_t s = 64; s < 512 && i == 1; s++) set16(defaults, 2 * s, s % 64);
        size_t length = reference_image(table, table_length, defaults, sizeof defaults, image, sizeof image).length;
        listing.p = 0;
        for (uint32_t s = first[i]; s < first[i] + 64; s++) {
            listed *l = list_state(&listing, image, s);
            l->fallback = 65535;
            l->count = 256;
            for (uint32_t c = 0; c < 256; c++) l->class[c] = c;
            for (uint32_t c = 0; c < 256; c++) l->next[c] = below(512);
        }
        find_costs(&listing, image);
        size_t patch_length = put_patch(&listing, image, length, patch);
        if (patch_length != KAMORDAST_LARGEST_PATCH) fail("the largest patch", patch_length);
        applies(length, patch_length);
    }
    /* Sixty-four states of the largest image that fall to a state and store nothing: the smallest patch of so many. */
    size_t length = reference_image(table, make_table(table, 512, 256, 0), memset(defaults, 255, sizeof defaults), sizeof defaults, image, sizeof image).length;
    listing.p = 0;
    for (uint32_t s = 100; s < 164; s++) list_state(&listing, image, s)->count = 0;
    for (uint32_t i = 0; i < 64; i++) listing.list[i].fallback = i ? 99 + i : 7;
    find_costs(&listing, image);
    if (applies(length, put_patch(&listing, image, length, patch)) != length - 4 * 64 * 256) fail("a chain of 64 states that store nothing", length);
    if (number16(applied, 6) != 64) fail("its depth", 0);
}

/* Damage anywhere in the image or in the patch, most times with the check word mended. */
static void damaged(int rounds) {
    static uint8_t kept[LONGEST_IMAGE];
    while (rounds--) {
        size_t length = some_image(1 + below(10), 1 + below(6)), patch_length = some_patch(length);
        uint32_t n = states_in(image), p = listing.p, q = number32(patch, 6);
        memcpy(kept, image, length);
        if (below(4) == 0) damage_image(image, kept, length);
        if (below(30) == 0) length = below((uint32_t)length + 1);
        for (uint32_t times = 1 + below(2); times; times--) switch (below(10)) {
            case 0: set16(patch, 2 * below(3), below(2) ? below(p + 3) : below(65536)); break;
            case 1: set32(patch, 6, below(2) ? q + below(3) - 1 : q + (below(4) << 30)); break;
            case 2: set16(patch, number_at(below(p)), below(n + 2)); break;
            case 3: set16(patch, record_at(p, below(p)), below(3) ? below(n + 1) : 65535); break;
            case 4: set16(patch, record_at(p, below(p)) + 2, below(8)); break;
            case 5: set16(patch, q ? entry_at(p, below(q)) : 4, below(8)); break;
            case 6: set16(patch, q ? entry_at(p, below(q)) + 2 : 2, below(n + 1)); break;
            case 7: set16(patch, patch_length - 2 * (1 + below(6)), below(2) ? below(65536) : below(80)); break;
            case 8: patch[below((uint32_t)patch_length)] ^= (uint8_t)(1 << below(8)); break;
            default: break;
            }
        if (below(8)) mend_check_word(patch, patch_length);
        if (below(12) == 0) patch_length = below((uint32_t)patch_length + 1);
        agrees(image, length, patch, patch_length);
    }
}

int main(void) {
    begin_patched(201);
    random_patches(2500);
    by_entries(6000);
    orders(700);
    largest();
    damaged(9000);
    static const uint32_t grounds[] = {0, 1, 2, 3, 4, 5, 6, 7, 8, 9, 10, 11, 12, 13, 14, 15, 16, 19, 22, 23, 24};
    for (size_t i = 0; i < sizeof grounds / sizeof *grounds; i++)
        if (!given[grounds[i]]) fail("a number was never given", grounds[i]);
    if (!to_itself || !entry_by_entry || !editions[0] || !editions[1] || !weak || !across_orders || !reported || !other_hops) fail("a kind of patch did not occur", cases);
    say_patched("applying");
    printf("  %llu made their targets, %llu of them the image itself, %llu over edition 1 and %llu over edition 2, %llu with defaults not worth their hops; %llu from one order to another; %llu made entry by entry\n",
           (unsigned long long)to_targets, (unsigned long long)to_itself, (unsigned long long)editions[0], (unsigned long long)editions[1], (unsigned long long)weak, (unsigned long long)across_orders,
           (unsigned long long)entry_by_entry);
    return 0;
}
