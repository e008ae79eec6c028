/* The judges against the independent reading: random and damaged tables and images of both editions, every pair of grounds, check words whose carry
 * comes round, every beginning and every altered byte of three images of each edition. A loader of the first edition judges every image too. Buffers end at a guard page. */
#include <stdio.h>
#include <string.h>

#include "kamordast.h"
#include "old_loader.h"
#include "reference/reference.h"
#include "rewritten.h"
#include "support.h"
#include "there_and_back.h"

static guarded lent;
static uint8_t table[LONGEST_TABLE], image[LONGEST_IMAGE], other[LONGEST_IMAGE], kept[LONGEST_IMAGE], defaults[1024];
static size_t small_table;
static uint64_t cases;
static uint64_t given_to_tables[20], given_to_images[20];

/* Judges bytes at both ends of the guarded pages and compares. */
static uint32_t judged(int as_image, const uint8_t *bytes, size_t length) {
    uint32_t right = as_image ? reference_judge_image(bytes, length) : reference_judge_table(bytes, length);
    for (int end = 0; end < 2; end++) {
        uint8_t *place = end ? at_end(&lent, length) : at_start(&lent);
        memcpy(place, bytes, length);
        uint32_t answer = as_image ? kamordast_judge_image(place, length) : kamordast_judge_table(place, length);
        if (answer != right) fail(as_image ? "the image's number differs" : "the table's number differs", cases);
        if (memcmp(place, bytes, length)) fail("a lent byte was changed", cases);
    }
    if (as_image) old_loader(bytes, length, right, cases);
    if (as_image && !right) there_and_back(bytes, length, cases);
    if (as_image && !right) rewritten(bytes, length, cases);
    (as_image ? given_to_images : given_to_tables)[right]++;
    cases++;
    return right;
}

static void expect(uint32_t answer, uint32_t number, const char *sentence) {
    if (answer != number) {
        printf("%u for %u: ", answer, number);
        fail(sentence, cases);
    }
}

/* Small sizes often, the largest sometimes. */
static uint32_t some_size(uint32_t most) {
    switch (below(8)) {
    case 0: return 1;
    case 1: return 1 + below(most);
    default: return 1 + below(most < 12 ? most : 12);
    }
}

static size_t some_table(void) {
    uint32_t n = some_size(512), k = some_size(256);
    return either_edition(table, make_table(table, n, k, below(257)));
}

/* An accepted image of a random table with random defaults. */
static size_t some_image(void) {
    size_t length = some_table();
    uint32_t n = states_in(table);
    make_defaults(defaults, n, below(257));
    reference_built built = reference_image(table, length, defaults, 2 * (size_t)n, image, sizeof image);
    if (built.refused) fail("the reference refused its own table", cases);
    return built.length;
}

static void random_tables(int rounds) {
    while (rounds--) {
        size_t length = some_table();
        expect(judged(0, table, length), 0, "a table as it should be");
        for (int damage = below(3); damage >= 0; damage--) {
            size_t at = below(4) ? below((uint32_t)length) : below(3) ? below(6) : 262 + below((uint32_t)length - 262);
            table[at] = below(2) ? (uint8_t)below(256) : (uint8_t)(table[at] + 1);
        }
        judged(0, table, below(4) ? length : below((uint32_t)length + 1));
    }
}

static void random_images(int rounds) {
    while (rounds--) {
        size_t length = some_image();
        expect(judged(1, image, length), 0, "an image as it should be");
        for (int copies = 0; copies < 4; copies++) {
            memcpy(other, image, length);
            for (int damage = below(3); damage >= 0; damage--) damage_image(other, image, length);
            judged(1, other, below(8) ? length : below((uint32_t)length + 1));
        }
    }
}

static void short_ones(void) {
    memset(other, 0, 300);
    for (size_t length = 0; length < 300; length++) {
        judged(0, other, length);
        judged(1, other, length);
    }
    size_t length = some_image();
    for (size_t cut = 0; cut < length && cut < 290; cut++) expect(judged(1, image, cut), cut < 24 ? 1 : 3, "a beginning of an image");
    for (int round = 0; round < 300; round++) {
        for (size_t i = 0; i < 289; i++) other[i] = (uint8_t)below(256);
        if (below(2)) {
            set16(other, 0, 1 + below(3) + 32768 * below(2));
            set16(other, 2, 1 + below(3));
            set32(other, 8, below(6));
        }
        judged(1, other, 24 + below(266));
    }
}

/* The image of two states, two classes and rows (0,1), (1,1), state 1 falling to 0: small enough to damage by hand. In edition 2 state 0 has the labels 3 and 4. */
static size_t small_image(int edition) {
    uint8_t list[4] = {255, 255, 0, 0};
    small_table = edition == 2 ? 278 : 274;
    set16(table, 0, 2);
    set16(table, 2, 2);
    set16(table, 4, 0);
    memset(table + 6, 0, 256);
    table[6 + 98] = 1;
    set32(table, 262, 0);
    if (edition == 2) {
        set16(table, 0, 32768 + 2);
        set16(table, 262, 2);
        set16(table, 266, 3);
        set16(table, 268, 4);
    }
    uint16_t rows[4] = {0, 1, 1, 1};
    for (int i = 0; i < 4; i++) set16(table, small_table - 8 + 2 * (size_t)i, rows[i]);
    reference_built built = reference_image(table, small_table, list, 4, image, sizeof image);
    if (built.refused) fail("the small image", 0);
    return built.length;
}

/* Of edition 2 only: 19 for a count and 19 for a label. */
enum { COUNT = 119, LABEL = 219 };

/* The faults of an image and of a table, each by its ground's number in the last two digits, in the order in which the grounds are tested. */
static const int image_faults[] = {2, COUNT, 3, 4, 5, 6, 7, LABEL, 8, 9, 10, 11, 12, 13}, table_faults[] = {2, COUNT, 3, 6, 7, LABEL, 10};
enum { IMAGE_FAULTS = sizeof image_faults / sizeof *image_faults, TABLE_FAULTS = sizeof table_faults / sizeof *table_faults };

static int of_second(int fault) { return fault == COUNT || fault == LABEL; }

/* One fault for each ground of an image; `records` and `entries` are places in the small image. */
static void image_fault(uint8_t *b, size_t length, int ground) {
    size_t entries = length - 12 - 4 * (size_t)number32(b, 8), records = entries - 8;
    switch (ground) {
    case 2: set16(b, 2, 0); break;
    case COUNT: set16(b, 270, 17); break;
    case LABEL: set16(b, 274, 3); break;
    case 3: set32(b, 8, number32(b, 8) + 1); break;
    case 4: set32(b, length - 8, (uint32_t)length + 2); break;
    case 5: set16(b, length - 2, number16(b, length - 2) ^ 1); break;
    case 6: set16(b, 4, 2); break;
    case 7: b[12] = 2; break;
    case 8: set16(b, records, 2); break;
    case 9: set16(b, length - 16, 2); break;
    case 10: set16(b, entries + 2, 2); break;
    case 11: set16(b, records + 4, 1); break;
    case 12: set16(b, entries + 2, number16(b, length - 14)); break;
    case 13: set16(b, 6, 9); break;
    }
    if (ground != 5 && ground != 2) mend_check_word(b, length);
}

/* For every two grounds the first is given where both faults are there. */
static void two_image_faults(int edition) {
    size_t length = small_image(edition);
    memcpy(kept, image, length);
    for (int i = 0; i < IMAGE_FAULTS; i++)
        for (int j = i; j < IMAGE_FAULTS; j++) {
            int first = image_faults[i], second = image_faults[j];
            if (edition == 1 && (of_second(first) || of_second(second))) continue;
            if (first == 10 && second == 12) continue; /* both stand in one place */
            memcpy(other, kept, length);
            /* The later fault first: a fault of 3 moves the places that the others are found by. */
            if (j > i) image_fault(other, length, second);
            image_fault(other, length, first);
            if (second == 5 && first != 5 && first != 2) set16(other, length - 2, number16(other, length - 2) ^ 1);
            expect(judged(1, other, length), (uint32_t)first % 100, "two faults in an image");
        }
    expect(judged(1, kept, 23), 1, "1 before 2 and 3");
}

static void two_table_faults(int edition) {
    for (int i = 0; i < TABLE_FAULTS; i++)
        for (int j = i; j < TABLE_FAULTS; j++) {
            if (edition == 1 && (of_second(table_faults[i]) || of_second(table_faults[j]))) continue;
            small_image(edition);
            size_t lent_length = small_table;
            for (int g = j; g >= i; g -= j > i ? j - i : 1)
                switch (table_faults[g]) {
                case 2: set16(table, 2, 0); break;
                case COUNT: set16(table, 264, 17); break;
                case LABEL: set16(table, 268, 3); break;
                case 3: lent_length--; break;
                case 6: set16(table, 4, 2); break;
                case 7: table[6] = 2; break;
                case 10: set16(table, small_table - 2, 2); break;
                }
            expect(judged(0, table, lent_length), (uint32_t)table_faults[i] % 100, "two faults in a table");
        }
    small_image(edition);
    set16(table, 2, 0);
    expect(judged(0, table, 5), 1, "1 before 2 in a table");
}

/* The counts at the edges, and a state that names itself. */
static void edges(int edition) {
    size_t length = small_image(edition);
    uint32_t n = 2, k = 2;
    uint32_t ms[] = {k - 1, n * k + 1, 0, 65536, 0x3fffffff, 0x40000000, 0x7fffffff, 0x80000000, 0xfffffffe, 0xffffffff};
    for (size_t i = 0; i < sizeof ms / sizeof *ms; i++) {
        memcpy(other, image, length);
        set32(other, 8, ms[i]);
        mend_check_word(other, length);
        expect(judged(1, other, length), 2, "m out of range");
    }
    /* One state that names itself: 2 without entries, 11 with them. */
    set16(table, 0, 1);
    set16(table, 2, 1);
    set16(table, 4, 0);
    memset(table + 6, 0, 256);
    set16(table, 262, 0);
    set16(table, 264, 0);
    uint8_t none[2] = {255, 255};
    reference_built built = reference_image(table, 266, none, 2, image, sizeof image);
    expect(built.refused, 0, "one state");
    set16(image, 270, 0);
    mend_check_word(image, built.length);
    expect(judged(1, image, built.length), 11, "a state that names itself");
    memcpy(other, image, 274);
    memcpy(other + 274, image + 278, 12);
    set32(other, 8, 0);
    set16(other, 272, 0);
    set32(other, 274, 12);
    set32(other, 278, 286);
    mend_check_word(other, 286);
    expect(judged(1, other, 286), 2, "a state that names itself and stores nothing");
}

/* The check word where the carry comes round: words that come to a multiple of 65535 (the check word is 0, and 65535 is refused), a label of 65535 before one
 * of 1, and the largest image of edition 1 with all labels 65535. */
static void check_words(int rounds) {
    while (rounds--) {
        size_t length, labels = 268;
        do length = some_image();
        while (edition_in(image) == 2);
        set16(image, labels, 0);
        mend_check_word(image, length);
        set16(image, labels, number16(image, length - 2));
        set16(image, length - 2, 0);
        expect(judged(1, image, length), 0, "words that come to a multiple of 65535");
        set16(image, length - 2, 65535);
        expect(judged(1, image, length), 5, "the other number that such words leave");
        if (number16(image, 0) < 2) continue;
        set16(image, labels, 65535);
        set16(image, labels + 2, 1);
        mend_check_word(image, length);
        expect(judged(1, image, length), 0, "65535 and then 1");
    }
    size_t length = make_table(table, 512, 256, 0);
    memset(table + 262, 255, 1024);
    memset(defaults, 255, 1024);
    reference_built built = reference_image(table, length, defaults, 1024, image, sizeof image);
    expect(built.length, 527640, "the length of the largest image");
    expect(judged(1, image, built.length), 0, "the largest image");
    kamordast_built written = kamordast_write(table, length, defaults, 1024, other, sizeof other);
    if (written.length != built.length || memcmp(other, image, built.length)) fail("the largest image is written as the reference does", cases);
    image[built.length - 14] ^= 1;
    expect(judged(1, image, built.length), 5, "the largest image with its last entry altered");
}

/* Of three images of an edition every proper beginning and every copy with one byte altered is refused. */
static void damage(uint32_t edition) {
    for (int round = 0; round < 3; round++) {
        size_t length;
        do length = round == 0 ? small_image((int)edition) : some_image();
        while (length > 700 || edition_in(image) != edition);
        uint8_t *place = at_end(&lent, length);
        expect(judged(1, image, length), 0, "the image itself");
        for (size_t cut = 0; cut < length; cut++) {
            uint8_t *short_one = at_end(&lent, cut);
            memcpy(short_one, image, cut);
            if (kamordast_judge_image(short_one, cut) == 0) fail("a proper beginning was accepted", cut);
            cases++;
        }
        memcpy(place, image, length);
        for (size_t at = 0; at < length; at++)
            for (int x = 1; x < 256; x++) {
                place[at] = (uint8_t)(image[at] ^ x);
                if (kamordast_judge_image(place, length) == 0) fail("an altered byte was not seen", at);
                place[at] = image[at];
                cases++;
            }
    }
}

int main(void) {
    lent = guard(LONGEST_IMAGE);
    seed(3);
    for (int edition = 1; edition <= 2; edition++) {
        two_image_faults(edition);
        two_table_faults(edition);
        edges(edition);
        damage((uint32_t)edition);
    }
    check_words(200);
    short_ones();
    random_tables(2000);
    random_images(1500);
    printf("judging: %llu cases agree\n", (unsigned long long)cases);
    printf("  tables ");
    for (int r = 0; r <= 19; r++)
        if (given_to_tables[r]) printf(" %d:%llu", r, (unsigned long long)given_to_tables[r]);
    printf("\n  images ");
    for (int r = 0; r <= 19; r++)
        if (given_to_images[r]) printf(" %d:%llu", r, (unsigned long long)given_to_images[r]);
    printf("\n");
    return 0;
}
