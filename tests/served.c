/* The program `served` against the independent reading, every byte that it prints: images of both editions with payloads of many kinds, damaged images, every cut and every altered byte of an
 * image, counts that lead far past the input, and inputs around 60,000 bytes. The images that are made here go to the other edition and back by the archive. */
#include <stdio.h>
#include <string.h>

#include "costliest.h"
#include "old_loader.h"
#include "program.h"
#include "reference/programs.h"
#include "reference/reference.h"
#include "there_and_back.h"

enum { LONGEST_INPUT = 60000 };

static uint8_t table[LONGEST_TABLE], image[LONGEST_IMAGE], defaults[1024], input[LONGEST_IMAGE + 2 * LONGEST_INPUT], room[6 * 16 * LONGEST_INPUT];
static uint64_t cases, given[20], too_long, empty, hops_counted, moved;

/* What the program prints of the input's first bytes. */
static void agree(size_t length) {
    static char text[REFERENCE_TEXT];
    unsigned number = 0;
    size_t text_length = reference_served_text(input, length, text);
    expect_text(input, length, text, text_length, cases++);
    if (!strcmp(text, "too long\n")) too_long++;
    else if (sscanf(text, "refused %u\n", &number) == 1) given[number]++;
    else given[0]++;
}

/* An image that was made is shown to a loader of the first edition, and goes there and back. */
static void shown(size_t length) {
    old_loader(image, length, 0, cases);
    moved += (uint64_t)there_and_back(image, length, cases);
}

/* Makes the image of a table of this length with the list of defaults. */
static size_t written(size_t length) {
    reference_built built = reference_image(table, length, defaults, 2 * (size_t)states_in(table), image, sizeof image);
    if (built.refused) fail("the reference refused its own table", cases);
    shown(built.length);
    return built.length;
}

/* An image of a random table of either edition: with random defaults, or compacted in one of the orders. */
static size_t some_image(uint32_t n, uint32_t k) {
    size_t length = make_table(table, n, k, below(257));
    if (!below(4)) /* a label on every state */
        for (uint32_t s = 0; s < n; s++) set16(table, 262 + 2 * s, 1 + below(65535));
    length = either_edition(table, length);
    if (n <= 12 && below(2)) {
        uint32_t order = below(4);
        length = reference_compact(table, length, order, below(6), image, sizeof image).length;
        shown(length);
        return length;
    }
    make_defaults(defaults, n, below(257));
    return written(length);
}

/* A payload of one of several kinds behind the image, which is put first. */
static void put(size_t length, size_t bytes) {
    uint8_t *payload = input + length, some[4] = {(uint8_t)below(256), (uint8_t)below(256), (uint8_t)below(256), (uint8_t)below(256)};
    uint32_t kind = below(6);
    memcpy(input, image, length);
    if (kind == 0 && bytes && bytes <= 400) {
        costliest *found = find_costliest(image, length, bytes);
        costliest_from(found, number16(image, 4), payload);
        forget_costliest(found);
        return;
    }
    for (size_t i = 0; i < bytes; i++) payload[i] = kind == 1 ? some[0] : kind == 2 ? (uint8_t)i : kind == 3 ? image[i % length] : kind == 4 ? some[below(4)] : (uint8_t)below(256);
}

/* The reading's two ways to go over a payload end in one state after as many hops, and both columns sum to the bytes. */
static void columns_hold(size_t length, size_t bytes) {
    reference_columns columns;
    uint64_t served = 0, ran = 0;
    reference_serve(input, input + length, bytes, &columns);
    reference_scanned scanned = reference_scan(input, length, number16(input, 4), input + length, bytes, room, sizeof room);
    for (uint32_t s = 0; s < 512; s++) {
        served += columns.served[s];
        ran += columns.ran[s];
    }
    if (scanned.taken != bytes || columns.state != scanned.state || columns.hops != scanned.hops) fail("the two readings part", cases);
    if (served != bytes || ran != bytes) fail("a column does not sum to the bytes", cases);
    hops_counted += columns.hops;
    empty += bytes == 0;
}

static void with_payloads(int rounds) {
    while (rounds--) {
        uint32_t n = 1 + below(below(8) ? 12 : 512), k = 1 + below(below(8) ? 9 : 256);
        size_t length = some_image(n, k), left = length < LONGEST_INPUT ? LONGEST_INPUT - length : 0;
        size_t bytes = below(8) == 0 ? 0 : below(10) ? below(400) : below((uint32_t)left + 1);
        if (bytes > left) bytes = left;
        put(length, bytes);
        if (left) columns_hold(length, bytes);
        agree(length + bytes);
    }
}

static void damaged(int rounds) {
    while (rounds--) {
        size_t length = some_image(1 + below(12), 1 + below(9)), bytes = below(3) ? below(60) : 0;
        put(length, bytes);
        for (int damage = below(3); damage >= 0; damage--) damage_image(input, image, length);
        agree(below(8) ? length + bytes : below((uint32_t)(length + bytes) + 1));
    }
}

/* Every beginning of an image with a payload, and every copy with one byte altered: one altered count moves the place where the image ends. */
static void cuts_and_alterations(uint32_t edition, uint32_t n, uint32_t k) {
    size_t length, bytes = 20;
    do length = some_image(n, k);
    while (edition_in(image) != edition);
    put(length, bytes);
    for (size_t cut = 0; cut <= length + bytes; cut++) agree(cut);
    for (size_t at = 0; at < length; at++) {
        uint8_t kept = input[at];
        input[at] ^= (uint8_t)(1 + below(255));
        agree(length + bytes);
        input[at] = kept;
    }
}

/* Counts that were not checked lead far: past 32 bits, back to the image's own end in 32 bits, or into the payload. */
static void far_counts(uint32_t edition) {
    size_t length, bytes = 400;
    do length = some_image(7, 4);
    while (edition_in(image) != edition || (edition == 2 && records_in(image) == 282));
    uint32_t m = number32(image, 8);
    const uint32_t far_m[] = {0, 1, 3, m - 1, m + 1, m + 2, 28, 29, 100, 0x3fffffff, 0x40000000, 0x40000000 + m, 0x80000000 + m, 0xc0000000 + m, 0xc0000001 + m,
                              0xffffff00, 0xffffffb0, 0xffffffff};
    const uint32_t far_n[] = {0, 1, 6, 7, 8, 512, 513, 10922, 32767, 32768, 32769, 32774, 32775, 32776, 33280, 33281, 65535};
    for (size_t i = 0; i < sizeof far_m / sizeof *far_m; i++)
        for (size_t j = 0; j < sizeof far_n / sizeof *far_n; j++) {
            put(length, bytes);
            set16(input, 0, far_n[j]);
            set32(input, 8, far_m[i]);
            agree(length + bytes);
            agree(length);
            mend_check_word(input, length);
            agree(length + (j % 2 ? bytes : 0));
        }
}

/* Counts of labels that were not checked: they lead into the payload, to its end, past it, and past 32 bits by their sum. */
static void far_labels(void) {
    static const uint32_t counts[] = {0, 1, 2, 15, 16, 17, 18, 100, 198, 199, 200, 201, 202, 255, 256, 32767, 32768, 65535};
    size_t length, bytes = 400;
    do length = some_image(7, 4);
    while (edition_in(image) != 2);
    for (uint32_t s = 0; s <= 7; s++)
        for (size_t i = 0; i < sizeof counts / sizeof *counts; i++) {
            put(length, bytes);
            for (uint32_t t = 0; t < 7; t++)
                if (t == s || s == 7) set16(input, 268 + 2 * t, counts[i]);
            agree(length + bytes);
            agree(length);
            mend_check_word(input, length);
            agree(length + bytes);
        }
    /* As many states as can be said, with counts as high as can be, or as many as the input just holds or just does not. */
    static const uint32_t states[] = {512, 513, 10000, 29865, 29866, 29867, 32767};
    for (size_t i = 0; i < sizeof states / sizeof *states; i++) {
        memset(input, 255, LONGEST_INPUT);
        memcpy(input, image, 268);
        set16(input, 0, 32768 + states[i]);
        agree(LONGEST_INPUT);
        set32(input, 8, 0xffffffff);
        agree(LONGEST_INPUT);
    }
}

/* Input that ends inside the counts of labels, or before they begin, is judged whole, and no count is looked at. */
static void cut_counts(void) {
    size_t length, bytes = 0;
    do length = some_image(12, 3);
    while (edition_in(image) != 2);
    put(length, bytes);
    memset(input + 268, 255, 24);
    for (size_t cut = 250; cut <= 300; cut++) agree(cut);
}

/* An image of just 60,000 bytes: 512 states and 28 classes, 14,162 entries of 14,336. Seven states fall to 0; six of them store nothing, and the last one all but six. */
static size_t longest_image(void) {
    const uint32_t n = 512, k = 28;
    size_t length = make_table(table, n, k, 0), rows = 262 + 2 * (size_t)n;
    memset(defaults, 255, sizeof defaults);
    for (uint32_t s = 1; s <= 7; s++) {
        set16(defaults, 2 * s, 0);
        for (uint32_t c = 0; c < k; c++) {
            uint32_t same = number16(table, rows + 2 * c);
            set16(table, rows + 2 * (s * k + c), s < 7 || c < 6 ? same : (same + 1) % n);
        }
    }
    return written(length);
}

/* Inputs around 60,000 bytes: the length is tested first, whatever the bytes are. */
static void limits(void) {
    size_t length = longest_image();
    if (length != LONGEST_INPUT) fail("an image of 60,000 bytes", length);
    for (size_t bytes = 0; bytes <= 2; bytes++) {
        put(length, bytes);
        agree(length + bytes);
        agree(length - 1 - bytes);
    }
    for (int round = 0; round < 6; round++) {
        length = some_image(1 + below(512), 1 + below(4));
        put(length, 2 * LONGEST_INPUT - length);
        for (size_t more = 0; more <= 2; more++) agree(LONGEST_INPUT - 1 + more);
        agree(2 * LONGEST_INPUT);
        input[below(300)] ^= 1;
        agree(LONGEST_INPUT);
        agree(LONGEST_INPUT + 1);
    }
    length = some_image(512, 60);
    put(length, 0);
    agree(LONGEST_INPUT);
    agree(length);
    memset(input, 0, sizeof input);
    agree(LONGEST_INPUT);
    agree(LONGEST_INPUT + 1);
}

/* The stairs in order 3, where byte 11 climbs 511 defaults: every state serves, and state 0 for all. */
static void long_chains(uint32_t edition) {
    size_t table_length = make_stairs(table), bytes = 2000;
    if (edition == 2) table_length = make_second(table, table_length, 16);
    size_t length = reference_compact(table, table_length, 3, 0, image, sizeof image).length;
    if (edition_in(image) != edition) fail("the stairs are of another edition", edition);
    shown(length);
    put(length, bytes);
    for (size_t i = 0; i < bytes; i++) input[length + i] = (uint8_t)(i % 512 == 511 ? 11 : below(12) ? 0 : below(12));
    columns_hold(length, bytes);
    agree(length + bytes);
}

int main(int count, char **words) {
    use_program(count, words);
    seed(14);
    limits();
    for (uint32_t edition = 1; edition <= 2; edition++) {
        far_counts(edition);
        long_chains(edition);
        cuts_and_alterations(edition, 4, 3);
        cuts_and_alterations(edition, 9, 5);
    }
    far_labels();
    cut_counts();
    with_payloads(900);
    damaged(900);
    for (uint32_t r = 0; r <= 19; r++)
        if (!given[r] && (r <= 13 || r == 19)) fail("a number that was never given", r);
    if (!too_long || !empty || !hops_counted || !moved) fail("too long, an empty payload, a hop and an image that was moved are each to be seen", cases);
    printf("served: %llu texts agree, %llu of them too long, %llu of no payload; %llu images there and back\n  given  ", (unsigned long long)cases, (unsigned long long)too_long,
           (unsigned long long)empty, (unsigned long long)moved);
    for (int r = 0; r < 20; r++)
        if (given[r]) printf(" %d:%llu", r, (unsigned long long)given[r]);
    printf("\n");
    return 0;
}
