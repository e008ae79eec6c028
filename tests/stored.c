/* Images kept in tests/images: each is still judged good, expanded, scanned and written again to the same bytes. Those of the orders 0 to 2 were built before the
 * root of a tree with two centres became the one with more neighbours; all but T's have a tree that is now rooted at its other centre. Those of order 3 are as that
 * order first built them, and those of edition 2 as that edition first was. That of the paper's three states was written with a list that write has refused since, as neither of its defaults is worth its hops: it is not written
 * again, but rewritten. */
#include <stdio.h>
#include <string.h>

#include "kamordast.h"
#include "old_loader.h"
#include "reference/reference.h"
#include "rewritten.h"
#include "support.h"
#include "there_and_back.h"

static const struct {
    const char *name;
    uint32_t order, bound;
    int built_so_now;
} stored[] = {
    {"T-bound-2", 0, 2, 1},           {"tree-of-five", 0, 65535, 0},   {"twelve-order-0", 0, 5, 0},
    {"twelve-order-1", 1, 3, 0},      {"twelve-order-2", 2, 3, 0},     {"forty-order-0", 0, 7, 0},
    {"twelve-order-3", 3, 0, 1},      {"forty-order-3", 3, 0, 1},      {"T-edition-2", 0, 2, 1},
    {"twelve-edition-2", 2, 3, 1},
};

static uint8_t image[LONGEST_IMAGE], table[LONGEST_TABLE], again[LONGEST_IMAGE], wanted[LONGEST_IMAGE], defaults[1024], payload[4096];
static uint8_t reports[6 * KAMORDAST_MOST_LABELS * sizeof payload], other_reports[sizeof reports];

static size_t read_image(const char *name) {
    char path[64];
    snprintf(path, sizeof path, "tests/images/%s.image", name);
    FILE *f = fopen(path, "rb");
    if (!f) fail(path, 0);
    size_t length = fread(image, 1, sizeof image, f);
    fclose(f);
    return length;
}

/* A scan of an image by the archive, held to the reference. */
static kamordast_scanned scanned(const uint8_t *b, size_t length, uint8_t *room, uint64_t number) {
    memset(room, 170, sizeof reports);
    memset(wanted, 170, sizeof reports);
    kamordast_scanned a = kamordast_scan(b, length, 0, payload, sizeof payload, room, sizeof reports);
    reference_scanned r = reference_scan(b, length, 0, payload, sizeof payload, wanted, sizeof reports);
    if (a.refused || r.refused || a.taken != r.taken || a.state != r.state || a.reports != r.reports || a.hops != r.hops) fail("the scan's numbers", number);
    if (a.taken != sizeof payload || memcmp(room, wanted, sizeof reports)) fail("the scan's reports", number);
    return a;
}

static void kept(size_t i) {
    size_t length = read_image(stored[i].name);
    if (kamordast_judge_image(image, length) || reference_judge_image(image, length)) fail("a stored image is refused", i);
    old_loader(image, length, 0, i);
    there_and_back(image, length, i);
    rewritten(image, length, i);

    kamordast_built back = kamordast_expand(image, length, table, sizeof table);
    if (back.refused || kamordast_judge_table(table, back.length)) fail("a stored image is not expanded", i);

    uint32_t n = states_in(image);
    size_t records = length - 12 - 4 * (size_t)number32(image, 8) - 4 * (size_t)n;
    for (uint32_t s = 0; s < n; s++) set16(defaults, 2 * s, number16(image, records + 4 * s));
    kamordast_built written = kamordast_write(table, back.length, defaults, 2 * (size_t)n, again, sizeof again);
    if (written.refused || written.length != length || memcmp(again, image, length)) fail("a stored image is not written again", i);

    kamordast_built anew = kamordast_compact_in_order(table, back.length, stored[i].order, (uint16_t)stored[i].bound, again, sizeof again);
    reference_built right = reference_compact(table, back.length, stored[i].order, stored[i].bound, wanted, sizeof wanted);
    if (anew.refused || anew.length != right.length || memcmp(again, wanted, anew.length)) fail("the table is not compacted as the reference does", i);
    if (anew.length != length) fail("the length changed", i);
    if ((memcmp(again, image, length) == 0) != stored[i].built_so_now) fail("built so now, or not", i);

    for (size_t j = 0; j < sizeof payload; j++) payload[j] = (uint8_t)(below(4) ? 96 + below(8) : below(256));
    kamordast_scanned before = scanned(image, length, reports, i), now = scanned(again, length, other_reports, i);
    if (before.state != now.state || before.reports != now.reports || memcmp(reports, other_reports, sizeof reports)) fail("the scans part", i);
    printf("  %-16s %4zu bytes, %u reports; %5u hops, built now %5u\n", stored[i].name, length, (unsigned)before.reports, (unsigned)before.hops, (unsigned)now.hops);
}

/* The three states: still judged, expanded and scanned; its own list is 25 now, and rewritten it is what compact makes of the table. */
static void retired(void) {
    static const uint8_t list[] = {255, 255, 0, 0, 1, 0};
    size_t length = read_image("three-states");
    if (length != 314 || kamordast_judge_image(image, length) || unworthy_in(image) != 2) fail("the image of the three states", length);
    there_and_back(image, length, 0);
    if (rewritten(image, length, 0) != 2) fail("the defaults of the three states", 0);
    kamordast_built expanded = kamordast_expand(image, length, table, sizeof table), built = kamordast_compact(table, expanded.length, 3, wanted, sizeof wanted);
    if (expanded.length != 280 || kamordast_write(table, 280, list, sizeof list, again, sizeof again).refused != 25) fail("the list of the three states is 25", 0);
    kamordast_built now = kamordast_rewrite(image, length, again, sizeof again);
    if (now.length != 322 || built.length != 322 || memcmp(again, wanted, 322)) fail("the three states rewritten", now.length);
    /* From state 2 a byte 'b' goes to 1, which its default served, and the next ones stay there. */
    memset(payload, 'b', sizeof payload);
    kamordast_scanned old = kamordast_scan(image, length, 2, payload, sizeof payload, reports, 0), anew = kamordast_scan(again, now.length, 2, payload, sizeof payload, reports, 0);
    if (old.taken != sizeof payload || old.state != 1 || old.hops != 1 || anew.taken != old.taken || anew.state != 1 || anew.hops) fail("the scans of the three states", 0);
    printf("  %-16s %4zu bytes, rewritten %u; %u hop, rewritten %u\n", "three-states", length, (unsigned)now.length, (unsigned)old.hops, (unsigned)anew.hops);
}

int main(void) {
    seed(13);
    printf("stored: images built before, judged, expanded, scanned and written again\n");
    for (size_t i = 0; i < sizeof stored / sizeof *stored; i++) kept(i);
    retired();
    return 0;
}
