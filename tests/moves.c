/* The moves across the editions against the independent reading: images of both editions there and back, rooms exact, one byte short and longer, damage in both directions, lists of two in every place, images kept
 * in stock, the largest ones; and the scans of an image and of what it became, from every state. */
#include <stdio.h>
#include <string.h>

#include "built.h"
#include "kamordast.h"
#include "reference/reference.h"

static uint8_t other[LONGEST_IMAGE], payload[64], before[6 * KAMORDAST_MOST_LABELS * sizeof payload], after[sizeof before];
static uint64_t scans, reported, moves[2], given_to_damage[2][22];

/* The direction in which an image goes to the other edition, and the one in which it is refused. */
static enum operation own(const uint8_t *b) { return edition_in(b) == 1 ? FORWARD : BACK; }
static enum operation wrong(const uint8_t *b) { return edition_in(b) == 1 ? BACK : FORWARD; }

/* The move of the image in a room of some length answers this number. */
static size_t answers(enum operation o, size_t length, size_t room_length, uint32_t number, const char *sentence) {
    uint64_t so_far = given[number];
    size_t result = compared(o, image, length, 0, 0, room_length);
    if (given[number] != so_far + 1) fail(sentence, cases);
    return result;
}

/* The image in the other edition, in rooms around its length and held to what the request says of each part; it is left in `other`. Answers its length. */
static size_t there(size_t length) {
    size_t result = with_rooms(own(image), image, length, 0, 0);
    if (!result) fail("an image as it should be is not moved", cases);
    if (answers(own(image), length, LONGEST_IMAGE, 0, "a room for the largest") != result) fail("the length depends on the room", cases);
    memcpy(other, wanted, result);
    size_t from = records_in(image), to = records_in(other);
    if (memcmp(other + 2, image + 2, 266) || memcmp(other + to, image + from, length - 8 - from) || number16(other, result - 4) != number16(image, length - 4))
        fail("the front, a class, a record, an entry, the distance back or the worst is another", cases);
    if (number32(other, result - 8) != result || number16(other, 0) != (number16(image, 0) ^ 32768)) fail("the length or the edition", cases);
    answers(wrong(image), length, LONGEST_IMAGE, 20, "the wrong direction is 20");
    answers(wrong(image), length, 0, 20, "20 before 16");
    answers(own(image), length, result - 1, 16, "a byte of room too few");
    moves[edition_in(image) - 1]++;
    return result;
}

/* There and back, each by the archive and the reading: the same bytes again. Leaves the image as it was, and what it became in `other`; answers that one's length. */
static size_t both_ways(size_t length) {
    static uint8_t kept[LONGEST_IMAGE];
    memcpy(kept, image, length);
    size_t result = there(length);
    memcpy(image, other, result);
    if (there(result) != length || memcmp(other, kept, length)) fail("there and back gives other bytes", cases);
    memcpy(other, image, result);
    memcpy(image, kept, length);
    return result;
}

/* From every state, or on large images from some: scans of the image and of what it became answer and report the same, hops too, in rooms for all, for some and for none. */
static void scanned(size_t length, size_t other_length) {
    uint32_t n = states_in(image), step = n > 20 ? n / 5 : 1;
    for (uint32_t s = 0; s <= n; s += step) {
        size_t bytes = 1 + below(sizeof payload), room = below(3) ? sizeof before : below(6 * (uint32_t)bytes);
        for (size_t i = 0; i < bytes; i++) payload[i] = (uint8_t)below(256);
        memset(before, 170, sizeof before);
        memset(after, 170, sizeof after);
        kamordast_scanned a = kamordast_scan(image, length, s, payload, bytes, before, room), b = kamordast_scan(other, other_length, s, payload, bytes, after, room);
        if (memcmp(&a, &b, sizeof a) || memcmp(before, after, sizeof before)) fail("scans before and after part", cases);
        if (a.refused != (s < n ? 0u : 14u)) fail("a scan's number", cases);
        scans++;
        reported += a.reports;
    }
}

/* The image of the table with the list of defaults. */
static size_t written(size_t length) {
    reference_built built = reference_image(table, length, defaults, 2 * (size_t)states_in(table), image, sizeof image);
    if (built.refused) fail("the reference refused its own table", cases);
    return built.length;
}

/* A table of either edition whose states have one label or none, its labels small so that they look like counts, or any. */
static size_t some_table(uint32_t n, uint32_t k) {
    size_t length = make_table(table, n, k, below(257));
    for (uint32_t s = 0, small = below(2); s < n && small; s++) set16(table, 262 + 2 * s, below(19));
    make_defaults(defaults, n, below(257));
    return below(2) ? length : make_second(table, length, 1);
}

/* Images at random with at most one label on a state, there, back and scanned; the last are of the largest tables. */
static void random_images(int rounds) {
    while (rounds--) {
        uint32_t n = rounds % 100 ? 1 + below(14) : 512 - below(100), k = rounds % 100 ? 1 + below(9) : 256 - below(100);
        size_t length = written(some_table(n, k));
        scanned(length, both_ways(length));
    }
}

/* A list of two in each place, and of up to 16, beside lists of one: 21, whatever the room. An image's own grounds come first. */
static void lists_of_two(int rounds) {
    while (rounds--) {
        uint32_t n = 1 + below(9), k = 1 + below(5), at = below(n);
        size_t length = make_second(table, make_table(table, n, k, 200), 1), labels = 262 + 2 * (size_t)n;
        for (uint32_t s = 0; s < at; s++) labels += 2 * (size_t)number16(table, 262 + 2 * s);
        uint32_t had = number16(table, 262 + 2 * at), count = 2 + (rounds % 3 ? 0 : below(15));
        memmove(table + labels + 2 * count, table + labels + 2 * had, length - labels - 2 * had);
        set16(table, 262 + 2 * at, count);
        for (uint32_t i = 0; i < count; i++) set16(table, labels + 2 * i, 7 * i + 1);
        make_defaults(defaults, n, 200);
        length = written(length + 2 * count - 2 * had);
        with_rooms(BACK, image, length, 0, 0);
        answers(BACK, length, LONGEST_IMAGE, 21, "a list longer than one");
        answers(BACK, length, 0, 21, "21 before 16");
        answers(FORWARD, length, LONGEST_IMAGE, 20, "an image of edition 2 forward");
        answers(BACK, length - 1, 0, 3, "3 before 21");
        image[length - 14] ^= 1;
        answers(BACK, length, LONGEST_IMAGE, 5, "5 before 21");
        answers(FORWARD, length, LONGEST_IMAGE, 5, "5 before 20");
    }
}

/* Damaged images, in both directions: the image's number where it has one, in each room. */
static void damaged(int rounds) {
    while (rounds--) {
        uint32_t n = 1 + below(8), k = 1 + below(6);
        size_t length = some_table(n, k);
        if (rounds % 3 == 0) length = either_edition(table, make_table(table, n, k, below(257)));
        length = written(length);
        memcpy(other, image, length);
        damage_image(image, other, length);
        if (below(8) == 0) length = below(2) ? below(24) : below((uint32_t)length);
        uint32_t number = reference_judge_image(image, length);
        if (!number) continue;
        for (int back = 0; back < 2; back++) {
            answers(back ? BACK : FORWARD, length, below(2) ? LONGEST_IMAGE : below(400), number, "the image's number comes first");
            given_to_damage[back][number]++;
        }
    }
    static const uint32_t grounds[] = {1, 2, 3, 4, 5, 6, 7, 8, 9, 10, 11, 12, 13, 19};
    for (size_t i = 0; i < sizeof grounds / sizeof *grounds; i++)
        if (!given_to_damage[0][grounds[i]] || !given_to_damage[1][grounds[i]]) fail("a ground of images was never given", grounds[i]);
}

/* Images of edition 1 that were built before there was another, and those of edition 2. The last has several labels on a state, as T-edition-2 has. */
static void in_stock(void) {
    static const struct {
        const char *name;
        uint32_t goes;
    } stock[] = {{"T-bound-2", 1},      {"tree-of-five", 1},   {"twelve-order-0", 1}, {"twelve-order-1", 1}, {"twelve-order-2", 1},
                 {"forty-order-0", 1},  {"twelve-order-3", 1}, {"forty-order-3", 1},  {"T-edition-2", 0},    {"twelve-edition-2", 0}};
    for (size_t i = 0; i < sizeof stock / sizeof *stock; i++) {
        char path[64];
        snprintf(path, sizeof path, "tests/images/%s.image", stock[i].name);
        FILE *f = fopen(path, "rb");
        if (!f) fail(path, 0);
        size_t length = fread(image, 1, sizeof image, f);
        fclose(f);
        if (stock[i].goes) {
            size_t result = both_ways(length);
            for (int runs = 0; runs < 20; runs++) scanned(length, result);
        } else {
            answers(BACK, length, LONGEST_IMAGE, 21, stock[i].name);
        }
    }
}

/* T forward: its two labels become lists of one, 4 bytes more. Every byte that is another is said here. */
static void t_forward(void) {
    static const uint16_t rows[] = {0, 1, 0, 0, 1, 2, 0, 1, 3, 0, 1, 0}, lists[] = {0, 0, 1, 1, 7, 9};
    rows_of(4, 3, rows);
    set16(table, 266, 7);
    set16(table, 268, 9);
    if (compared(COMPACT, table, 294, 0, 2, 324) != 324) fail("T's image", 0);
    memcpy(image, wanted, 324);
    if (both_ways(324) != 328) fail("T's length in edition 2", 0);
    if (number32(other, 328 - 8) != 328 || number32(other, 328 - 12) != 32 || number16(other, 0) != 32772) fail("T's trailer and first word in edition 2", 0);
    for (size_t i = 0; i < 6; i++)
        if (number16(other, 268 + 2 * i) != lists[i]) fail("T's lists in edition 2", i);
    for (int runs = 0; runs < 50; runs++) scanned(324, 328);
}

/* Without labels only the first word and the check word are others; with a label on each state an image of 512 states is 1,024 bytes longer, and the largest that goes back has 528,664. */
static void edges(void) {
    size_t length = make_table(table, 3, 2, 200);
    memset(table + 262, 0, 6);
    memset(defaults, 255, 1024);
    length = written(length);
    both_ways(length);
    if (records_in(other) != records_in(image) || memcmp(other + 2, image + 2, length - 4)) fail("an image without labels", length);
    static const uint16_t labels[] = {1, 2, 15, 16, 17, 255, 256, 32767, 32768, 32769, 65534, 65535};
    for (size_t i = 0; i < sizeof labels / sizeof *labels; i++) {
        length = make_table(table, 1, 1, 0);
        set16(table, 262, labels[i]);
        length = written(length);
        both_ways(length);
        if (number16(other, 268) != 1 || number16(other, 270) != labels[i]) fail("a label becomes a list of one", labels[i]);
    }
    length = make_table(table, 512, 256, 0);
    for (uint32_t s = 0; s < 512; s++) set16(table, 262 + 2 * s, 1 + below(65535));
    length = written(length);
    if (length != 527640) fail("the largest image of edition 1", length);
    if (both_ways(length) != 528664) fail("the largest image that goes back", 0);
    scanned(length, 528664);
    length = make_table(table, 512, 256, 0);
    length = make_second(table, length, 0);
    for (uint32_t s = 0; s < 512; s++) set16(table, 262 + 2 * s, 16);
    memmove(table + 262 + 34 * 512, table + 262 + 2 * 512, length - 262 - 2 * 512);
    for (uint32_t i = 0; i < 16 * 512; i++) set16(table, 262 + 2 * 512 + 2 * i, 1 + i % 16);
    answers(BACK, written(LONGEST_TABLE), LONGEST_IMAGE, 21, "the largest image of all");
}

int main(void) {
    begin(161);
    t_forward();
    edges();
    in_stock();
    random_images(1500);
    lists_of_two(800);
    damaged(5000);
    if (!moves[0] || !moves[1] || !scans || !reported) fail("a kind of move, a scan or a report did not occur", cases);
    say("moves");
    printf("  moved %llu forward and %llu back; %llu scans before and after agree, with %llu reports\n", (unsigned long long)moves[0], (unsigned long long)moves[1], (unsigned long long)scans,
           (unsigned long long)reported);
    return 0;
}
