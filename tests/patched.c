#include "patched.h"

#include <stdio.h>
#include <string.h>

#include "reference/reference.h"
#include "there_and_back.h"

enum { PAYLOAD = 64, REPORTS = 6 * KAMORDAST_MOST_LABELS * PAYLOAD };

uint8_t table[LONGEST_TABLE], image[LONGEST_IMAGE], defaults[1024], patch[LONGEST_PATCH], applied[LONGEST_IMAGE];
uint64_t cases, given[29], accepted, scans, reported, hops_counted, other_hops;

static guarded image_pages, patch_pages, room_pages, payload_pages;
static uint8_t wanted[LONGEST_IMAGE + 64], payload[PAYLOAD], before[REPORTS], after[REPORTS];

void begin_patched(uint64_t from) {
    image_pages = guard(LONGEST_IMAGE);
    patch_pages = guard(2 * LONGEST_PATCH);
    room_pages = guard(LONGEST_IMAGE + 64);
    payload_pages = guard(PAYLOAD);
    seed(from);
}

/* A payload at random; answers its length. */
static size_t some_payload(void) {
    size_t bytes = below(PAYLOAD + 1);
    for (size_t i = 0; i < bytes; i++) payload[i] = (uint8_t)below(256);
    return bytes;
}

/* Room for reports: for all, for some, for none. */
static size_t some_room(size_t bytes) { return below(3) ? REPORTS : below(2) ? below(6 * (uint32_t)bytes + 1) : below(6); }

/* The lent image and the patch, at either end of their pages. */
static uint8_t *lent_image, *lent_patch;

static void lend(const uint8_t *from_image, size_t length, const uint8_t *from_patch, size_t patch_length) {
    lent_image = at_either(&image_pages, length, cases);
    lent_patch = at_either(&patch_pages, patch_length, cases / 2);
    memcpy(lent_image, from_image, length);
    memcpy(lent_patch, from_patch, patch_length);
}

static void unchanged(const uint8_t *from_image, size_t length, const uint8_t *from_patch, size_t patch_length) {
    if (memcmp(lent_image, from_image, length) || memcmp(lent_patch, from_patch, patch_length)) fail("a lent byte was changed", cases);
}

/* Apply in a room of some length, by the archive and the reading, or where the patch is refused by the number. */
static void compare_apply(size_t length, size_t patch_length, uint32_t number, size_t room_length) {
    uint8_t *room = at_either(&room_pages, room_length, cases);
    memset(room, 170, room_length);
    memset(wanted, 170, room_length);
    reference_built right = {number, 0};
    if (!number) right = reference_apply(lent_image, length, lent_patch, patch_length, wanted, room_length);
    kamordast_built answer = kamordast_apply(lent_image, length, lent_patch, patch_length, room, room_length);
    if (answer.refused != right.refused) {
        printf("apply: %u for %u: ", answer.refused, right.refused);
        fail("the number differs", cases);
    }
    if (answer.length != right.length) fail("the length differs", cases);
    if (memcmp(room, wanted, room_length)) fail("the room of apply differs", cases);
    given[right.refused] += right.refused == 16;
}

/* The patched scan from some state, likewise; with a state that is none and a payload that is too long at times. */
static void compare_scan(size_t length, size_t patch_length, uint32_t number) {
    static uint8_t long_payload[65537];
    uint32_t n = length >= 2 ? states_in(lent_image) : 0, state = below(6) ? below(n + 1) : below(2) ? n + below(65536) : 0xffffffff - below(2);
    size_t bytes = some_payload(), room_length = some_room(bytes);
    int too_long = below(12) == 0;
    uint8_t *room = at_either(&room_pages, room_length, cases), *lent = at_either(&payload_pages, bytes, cases);
    memcpy(lent, payload, bytes);
    memset(room, 170, room_length);
    memset(wanted, 170, room_length);
    reference_scanned right = {number, 0, 0, 0, 0};
    const uint8_t *from = too_long ? long_payload : lent;
    if (too_long) bytes = sizeof long_payload;
    if (!number) right = reference_scan_patched(lent_image, length, lent_patch, patch_length, state, from, bytes, wanted, room_length);
    kamordast_scanned answer = kamordast_scan_patched(lent_image, length, lent_patch, patch_length, state, from, bytes, room, room_length);
    if (answer.refused != right.refused) {
        printf("the patched scan: %u for %u: ", answer.refused, right.refused);
        fail("the number differs", cases);
    }
    if (answer.taken != right.taken || answer.state != right.state || answer.reports != right.reports || answer.hops != right.hops) fail("the patched scan answers otherwise", cases);
    if (memcmp(room, wanted, room_length)) fail("the room of the patched scan differs", cases);
    if (!too_long && memcmp(lent, payload, bytes)) fail("the payload was changed", cases);
    given[right.refused] += right.refused == 14 || right.refused == 15;
}

uint32_t agrees(const uint8_t *from_image, size_t length, const uint8_t *from_patch, size_t patch_length) {
    lend(from_image, length, from_patch, patch_length);
    uint32_t right = reference_judge_patch(from_image, length, from_patch, patch_length), answer = kamordast_judge_patch(lent_image, length, lent_patch, patch_length);
    if (answer != right) {
        printf("judge: %u for %u: ", answer, right);
        fail("the number differs", cases);
    }
    compare_apply(length, patch_length, right, below(2) ? LONGEST_IMAGE : below(800));
    compare_scan(length, patch_length, right);
    unchanged(from_image, length, from_patch, patch_length);
    given[right]++;
    cases++;
    return right;
}

void answers(size_t length, size_t patch_length, uint32_t number, const char *sentence) {
    if (agrees(image, length, patch, patch_length) != number) fail(sentence, cases - 1);
}

/* The patched scan from a state beside the archive's scan of what was applied, and beside the scan of the image as it was. */
static void same_scans(size_t length, size_t patch_length, size_t applied_length, uint32_t state) {
    size_t bytes = some_payload(), room_length = some_room(bytes);
    memset(before, 170, sizeof before);
    memset(after, 170, sizeof after);
    kamordast_scanned a = kamordast_scan_patched(lent_image, length, lent_patch, patch_length, state, payload, bytes, before, room_length);
    kamordast_scanned b = kamordast_scan(applied, applied_length, state, payload, bytes, after, room_length);
    if (memcmp(&a, &b, sizeof a) || memcmp(before, after, sizeof before)) fail("the patched scan and the scan of the applied image part", cases);
    if (a.refused != (state < states_in(image) ? 0u : 14u)) fail("a scan's number", cases);
    scans++;
    reported += a.reports;
    hops_counted += a.hops;
    other_hops += kamordast_scan(lent_image, length, state, payload, bytes, before, room_length).hops != a.hops;
}

size_t applies(size_t length, size_t patch_length) {
    uint32_t n = states_in(image), step = n > 20 ? n / 8 : 1;
    answers(length, patch_length, 0, "a patch as it should be is refused");
    lend(image, length, patch, patch_length);
    kamordast_built built = kamordast_apply(lent_image, length, lent_patch, patch_length, applied, sizeof applied);
    if (built.refused) fail("the largest room is too short", cases);
    const size_t rooms[] = {built.length, built.length - 1, built.length + 1 + below(40), below(built.length), 0};
    for (size_t i = 0; i < sizeof rooms / sizeof *rooms; i++) compare_apply(length, patch_length, 0, rooms[i]);
    size_t labels = records_in(image);
    if (memcmp(applied, image, 6) || memcmp(applied + 12, image + 12, labels - 12)) fail("the edition, k, the start state, a class or a label is another", cases);
    if (kamordast_judge_image(applied, built.length)) fail("an applied image is refused", cases);
    there_and_back(applied, built.length, cases);
    for (uint32_t s = 0; s <= n; s += step) same_scans(length, patch_length, built.length, s);
    same_scans(length, patch_length, built.length, n);
    unchanged(image, length, patch, patch_length);
    accepted++;
    return built.length;
}

size_t some_image(uint32_t n, uint32_t k) {
    size_t length = either_edition(table, make_table(table, n, k, below(257)));
    reference_built built;
    if (n <= 40 && below(2)) {
        uint32_t order = below(4);
        built = reference_compact(table, length, order, below(2) ? below(6) : 65535, image, sizeof image);
    } else {
        make_defaults(defaults, n, below(257));
        built = reference_image(table, length, defaults, 2 * (size_t)n, image, sizeof image);
    }
    if (built.refused) fail("the reading refused its own table", cases);
    return built.length;
}

uint8_t target[LONGEST_IMAGE];
size_t target_length;
parts listing;

/* The defaults of the image, some of them changed: to none, or all chosen anew. */
static void other_defaults(uint32_t n) {
    size_t records = records_in(image);
    if (below(4) == 0) {
        make_defaults(defaults, n, below(257));
        return;
    }
    for (uint32_t s = 0; s < n; s++) set16(defaults, 2 * s, number16(image, records + 4 * (size_t)s));
    for (uint32_t times = below(3); times; times--) set16(defaults, 2 * below(n), 65535);
}

size_t some_patch(size_t length) {
    static uint8_t other[LONGEST_TABLE];
    uint32_t n = states_in(image), k = number16(image, 2);
    size_t table_length = reference_expand(image, length, other, sizeof other).length, rows = rows_in(other);
    for (uint32_t times = below(4); times; times--) {
        size_t row = rows + 2 * (size_t)below(n) * k;
        for (uint32_t changes = 1 + below(k); changes; changes--) set16(other, row + 2 * below(k), below(n));
    }
    other_defaults(n);
    reference_built built = reference_image(other, table_length, defaults, 2 * (size_t)n, target, sizeof target);
    if (built.refused) fail("the reading refused a target", cases);
    target_length = built.length;
    listing.p = 0;
    if (list_differences(&listing, image, target) > KAMORDAST_MOST_PATCHED) return 0;
    /* States that are listed as they were, and one at least is listed. */
    for (uint32_t times = below(3) + (listing.p == 0); times; times--)
        if (listing.p < KAMORDAST_MOST_PATCHED) list_state(&listing, target, below(n));
    find_costs(&listing, image);
    if (listing.depth != number16(target, 6) || listing.worst != number16(target, target_length - 4)) fail("the costs of a target", cases);
    return put_patch(&listing, image, length, patch);
}

void say_patched(const char *name) {
    printf("%s: %llu cases agree, each judged, applied and scanned with; %llu patches accepted\n  given  ", name, (unsigned long long)cases, (unsigned long long)accepted);
    for (int r = 0; r < 29; r++)
        if (given[r]) printf(" %d:%llu", r, (unsigned long long)given[r]);
    printf("\n  %llu patched scans are those of the applied image, with %llu reports and %llu hops; in %llu of them the image without the patch takes other hops\n", (unsigned long long)scans,
           (unsigned long long)reported, (unsigned long long)hops_counted, (unsigned long long)other_hops);
}
