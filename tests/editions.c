/* Edition 2 at its edges, by the judges, write, compact and expand, each number said here and held to the independent reading: first words, counts of 16 and 17, labels that are zero,
 * equal or falling, every cut inside the counts, damage to images with and without labels, the largest table and image. */
#include <stdio.h>
#include <string.h>

#include "built.h"
#include "kamordast.h"
#include "old_loader.h"
#include "reference/reference.h"
#include "rewritten.h"
#include "there_and_back.h"

static uint8_t other[LONGEST_IMAGE];

/* The numbers of the judges. */
static void table_is(size_t length, uint32_t number, const char *sentence) {
    if (reference_judge_table(table, length) != number || kamordast_judge_table(table, length) != number) fail(sentence, length);
    cases++;
}

static void image_is(const uint8_t *b, size_t length, uint32_t number, const char *sentence) {
    if (reference_judge_image(b, length) != number || kamordast_judge_image(b, length) != number) fail(sentence, length);
    old_loader(b, length, number, cases);
    if (!number) there_and_back(b, length, cases);
    if (!number) rewritten(b, length, cases);
    cases++;
}

/* The table T of the paper in edition 2, with these labels; answers its length. State 0 has none. */
static size_t make_t(const uint16_t *counts, const uint16_t *labels) {
    static const uint16_t rows[] = {0, 1, 0, 0, 1, 2, 0, 1, 3, 0, 1, 0};
    size_t at = 270;
    rows_of(4, 3, rows);
    set16(table, 0, 32768 + 4);
    for (uint32_t s = 0; s < 4; s++) set16(table, 262 + 2 * s, counts[s]);
    for (uint32_t s = 0; s < 4; s++)
        for (uint32_t i = 0; i < counts[s]; i++, at += 2) set16(table, at, *labels++);
    for (uint32_t i = 0; i < 12; i++, at += 2) set16(table, at, rows[i]);
    return at;
}

/* The image of the table with all states as roots. */
static size_t rooted(size_t length) {
    memset(defaults, 255, 1024);
    return compared(WRITE, table, length, 2 * (size_t)states_in(table), 0, LONGEST_IMAGE);
}

/* The first words at the edges of both editions, on tables and images that are sound but for them. */
static void first_words(void) {
    static const struct {
        uint32_t word, states;
    } words[] = {{0, 0}, {1, 1}, {512, 512}, {513, 0}, {32767, 0}, {32768, 0}, {32769, 1}, {33280, 512}, {33281, 0}, {65535, 0}};
    for (size_t i = 0; i < sizeof words / sizeof *words; i++) {
        uint32_t n = words[i].states ? words[i].states : 512, right = words[i].states ? 0 : 2;
        size_t length = make_table(table, n, 2, 128);
        if (words[i].word >= 32768) length = make_second(table, length, 16);
        size_t image_length = rooted(length);
        memcpy(image, wanted, image_length);
        set16(table, 0, words[i].word);
        set16(image, 0, words[i].word);
        mend_check_word(image, image_length);
        table_is(length, right, "a table's first word");
        image_is(image, image_length, right, "an image's first word");
        /* Of the front alone: out of range is 2, and all else ends too early. */
        table_is(6, right ? 2 : 3, "a first word and no more of a table");
        image_is(image, 24, right ? 2 : 3, "a first word and no more of an image");
        table_is(5, 1, "a table of five bytes");
        image_is(image, 23, 1, "an image of 23 bytes");
    }
}

/* Sixteen labels on each state are taken; seventeen on any are 19, whether or not there is a place for them, before 3, 5 and 6. */
static void sixteen_and_seventeen(void) {
    static const uint16_t full[] = {16, 16, 16, 16};
    uint16_t labels[64];
    for (uint32_t i = 0; i < 64; i++) labels[i] = (uint16_t)(65520 + i % 16);
    size_t length = make_t(full, labels), image_length = rooted(length);
    table_is(length, 0, "sixteen labels on each state, the last 65535");
    memcpy(image, wanted, image_length);
    image_is(image, image_length, 0, "an image with sixteen labels on each state");
    static const uint32_t above[] = {17, 18, 255, 256, 272, 32768, 65535};
    for (uint32_t s = 0; s < 4; s++)
        for (size_t i = 0; i < sizeof above / sizeof *above; i++) {
            set16(table, 262 + 2 * s, above[i]);
            table_is(length, 19, "a count above sixteen in a table");
            table_is(length - 1, 19, "19 before 3 in a table");
            table_is(270, 19, "19 right behind the counts");
            table_is(269, 3, "input that ends inside the counts");
            set16(table, 4, 4);
            table_is(length, 19, "19 before 6 in a table");
            set16(table, 4, 0);
            set16(table, 262 + 2 * s, 16);
            memcpy(other, image, image_length);
            set16(other, 268 + 2 * s, above[i]);
            image_is(other, image_length, 19, "19 before 5 in an image");
            mend_check_word(other, image_length);
            image_is(other, image_length, 19, "a count above sixteen in an image");
            image_is(other, 276, 19, "19 right behind the counts of an image");
            image_is(other, 275, 3, "an image that ends inside the counts");
        }
    /* Seventeen labels with a place for each. */
    static const uint16_t more[] = {0, 0, 17, 0};
    for (uint16_t i = 0; i < 17; i++) labels[i] = (uint16_t)(i + 1);
    table_is(make_t(more, labels), 19, "seventeen labels that rise");
    /* In edition 1 the same words are labels, and any number is right. */
    length = make_table(table, 4, 3, 128);
    for (size_t i = 0; i + 1 < sizeof above / sizeof *above; i += 2) {
        set16(table, 262, above[i]);
        set16(table, 264, above[i + 1]);
        table_is(length, 0, "any label in edition 1");
    }
}

/* Every place of a list of four: zero, equal to the one before, below it. Across two states labels may fall, and one label may stand in several. */
static void labels_that_do_not_rise(void) {
    static const uint16_t counts[] = {0, 4, 4, 1}, sound[] = {5, 6, 700, 65535, 1, 5, 6, 700, 1};
    size_t length = make_t(counts, sound), image_length = rooted(length);
    table_is(length, 0, "labels that fall from one state to the next");
    memcpy(image, wanted, image_length);
    for (uint32_t i = 0; i < 9; i++) {
        uint32_t first = i == 0 || i == 4 || i == 8, before = sound[first ? i : i - 1];
        const uint32_t wrong[] = {0, before, before - 1};
        for (uint32_t w = 0; w < (first ? 1 : 3); w++) {
            make_t(counts, sound);
            set16(table, 270 + 2 * i, wrong[w]);
            table_is(length, 19, "a label that is zero or does not rise in a table");
            set16(table, length - 2, 4);
            table_is(length, 19, "19 before 10 in a table");
            table[6] = 3;
            table_is(length, 7, "7 before 19 in a table");
            memcpy(other, image, image_length);
            set16(other, 276 + 2 * i, wrong[w]);
            /* The check word cannot tell 65535 from 0. */
            image_is(other, image_length, sound[i] - wrong[w] == 65535 ? 19 : 5, "an altered label is 5");
            mend_check_word(other, image_length);
            image_is(other, image_length, 19, "a label that is zero or does not rise in an image");
            set16(other, 276 + 18, 9);
            mend_check_word(other, image_length);
            image_is(other, image_length, 19, "19 before 8 in an image");
            other[12] = 3;
            mend_check_word(other, image_length);
            image_is(other, image_length, 7, "7 before 19 in an image");
        }
    }
}

/* Every length up to the whole one. Before the counts' end no count is looked at, though each is wrong; right behind it each is. */
static void cuts(void) {
    for (int round = 0; round < 40; round++) {
        uint32_t n = 1 + below(round ? 9 : 1), k = 1 + below(4);
        size_t length = make_second(table, make_table(table, n, k, 200), 16), image_length = rooted(length), table_end = 262 + 2 * n, image_end = 268 + 2 * n;
        memcpy(image, wanted, image_length);
        for (size_t cut = 0; cut < length; cut++) table_is(cut, cut < 6 ? 1 : 3, "a beginning of a table");
        for (size_t cut = 0; cut < image_length; cut++) image_is(image, cut, cut < 24 ? 1 : 3, "a beginning of an image");
        memset(table + 262, 255, 2 * n);
        memset(image + 268, 255, 2 * n);
        for (size_t cut = 6; cut <= length; cut++) table_is(cut, cut < table_end ? 3 : 19, "a beginning of a table with wrong counts");
        for (size_t cut = 24; cut <= image_length; cut++) image_is(image, cut, cut < image_end ? 3 : 19, "a beginning of an image with wrong counts");
    }
}

/* Of an image every copy with one byte altered is refused, and with the reading's number. */
static void every_byte(size_t length) {
    memcpy(image, wanted, length);
    for (size_t at = 0; at < length; at++)
        for (int x = 1; x < 256; x++) {
            image[at] ^= (uint8_t)x;
            uint32_t right = reference_judge_image(image, length);
            if (right == 0) fail("an altered byte was not seen by the reading", at);
            image_is(image, length, right, "an altered byte");
            image[at] ^= (uint8_t)x;
        }
}

/* Damage to T in edition 2 with no labels, with some and with all; and the first word that says the other edition. Without labels both editions have the same length, and only the
 * check word tells them apart; with the check word mended the image is one of the other edition. */
static void damage(void) {
    static const uint16_t lists[][4] = {{0, 0, 0, 0}, {0, 0, 1, 3}, {16, 16, 16, 16}};
    uint16_t labels[64];
    for (uint16_t i = 0; i < 64; i++) labels[i] = (uint16_t)(7 + i);
    for (size_t i = 0; i < 3; i++) {
        size_t length = make_t(lists[i], labels), image_length = compared(COMPACT, table, length, 0, 2, LONGEST_IMAGE);
        if (image_length != 324 + (length - 294)) fail("the length of T's image in edition 2", image_length);
        expect_image((uint32_t)image_length, 5, 1, 1, "T's numbers in edition 2");
        every_byte(image_length);
        set16(image, 0, 4);
        image_is(image, image_length, i ? 3 : 5, "edition 2 said to be edition 1");
        mend_check_word(image, image_length);
        image_is(image, image_length, i ? 3 : 0, "edition 2 without labels made edition 1");
        if (i) continue;
        set16(image, 0, 32768 + 4);
        image_is(image, image_length, 5, "edition 1 without labels said to be edition 2");
        mend_check_word(image, image_length);
        image_is(image, image_length, 0, "edition 1 without labels made edition 2");
    }
    /* T itself, of edition 1: its labels 7 and 9 are read as counts, and its length is then another. */
    static const uint16_t rows[] = {0, 1, 0, 0, 1, 2, 0, 1, 3, 0, 1, 0};
    rows_of(4, 3, rows);
    set16(table, 266, 7);
    set16(table, 268, 9);
    size_t length = compared(COMPACT, table, 294, 0, 2, LONGEST_IMAGE);
    memcpy(image, wanted, length);
    set16(image, 0, 32768 + 4);
    image_is(image, length, 3, "edition 1 said to be edition 2");
    set16(image, 274, 17);
    image_is(image, length, 19, "a label above sixteen read as a count");
}

/* The list of defaults has two bytes for each of n states, and n is without the edition. */
static void lists_of_defaults(void) {
    size_t length = make_second(table, make_table(table, 5, 3, 200), 16);
    make_defaults(defaults, 5, 200);
    with_rooms(WRITE, table, length, 10, 0);
    static const size_t wrong[] = {0, 8, 9, 11, 12, 1024};
    for (size_t i = 0; i < sizeof wrong / sizeof *wrong; i++) {
        uint64_t before = given[8];
        compared(WRITE, table, length, wrong[i], 0, LONGEST_IMAGE);
        if (given[8] != before + 1) fail("a list of another length is 8", wrong[i]);
    }
    set16(defaults, 4, 32768);
    compared(WRITE, table, length, 10, 0, LONGEST_IMAGE);
    set16(defaults, 4, 32768 + 5);
    compared(WRITE, table, length, 10, 0, LONGEST_IMAGE);
}

/* The largest table and the largest image: 512 states, 256 classes, 16 labels on each state, no defaults. */
static void largest(void) {
    size_t length = make_table(table, 512, 256, 0);
    if (KAMORDAST_LARGEST_TABLE != LONGEST_TABLE || KAMORDAST_LARGEST_IMAGE != LONGEST_IMAGE) fail("the header's largest sizes", 0);
    memmove(table + 262 + 34 * 512, table + 262 + 2 * 512, length - 262 - 2 * 512);
    set16(table, 0, 32768 + 512);
    for (uint32_t s = 0; s < 512; s++) set16(table, 262 + 2 * s, 16);
    for (uint32_t i = 0; i < 16 * 512; i++) set16(table, 262 + 2 * 512 + 2 * i, 65535 - 15 + i % 16);
    table_is(LONGEST_TABLE, 0, "the largest table");
    table_is(LONGEST_TABLE - 1, 3, "the largest table less a byte");
    memset(defaults, 255, 1024);
    if (with_rooms(WRITE, table, LONGEST_TABLE, 1024, 0) != LONGEST_IMAGE) fail("the length of the largest image", 0);
    compared(WRITE, table, LONGEST_TABLE, 1024, 0, LONGEST_IMAGE);
    memcpy(image, wanted, LONGEST_IMAGE);
    image_is(image, LONGEST_IMAGE, 0, "the largest image");
    if (with_rooms(EXPAND, image, LONGEST_IMAGE, 0, 0) != LONGEST_TABLE) fail("the length of the largest table", 0);
    image[LONGEST_IMAGE - 14] ^= 1;
    image_is(image, LONGEST_IMAGE, 5, "the largest image with its last entry altered");
}

int main(void) {
    begin(151);
    first_words();
    sixteen_and_seventeen();
    labels_that_do_not_rise();
    cuts();
    damage();
    lists_of_defaults();
    largest();
    say("editions");
    return 0;
}
