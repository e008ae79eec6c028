/* Tables from word lists against the independent reading: lists dense in overlaps, one string the ending of another, equal strings with two labels, all bytes in use, the largest lists, every truncation, counts, lengths and labels at their
 * edges, 16 and 17 labels on a state, 512 and 513 states, and 19 before 28. Then the walk of the table, and the scan of the images that compact makes of it in every order, against a plain search of every string at every offset. */
#include <stdio.h>
#include <string.h>

#include "listed.h"
#include "reference/reference.h"

/* A string: of few letters, or a piece of one before, to which something may be added. */
static size_t some_string(uint8_t *bytes, uint32_t letters, uint32_t longest) {
    size_t string_length = 1 + below(longest);
    uint32_t count = number16(list, 0), first = letters < 100 ? 'a' : 0;
    for (size_t i = 0; i < string_length; i++) bytes[i] = (uint8_t)(first + below(letters));
    if (!count || below(3) == 0) return string_length;
    size_t at = place_of(below(count));
    uint32_t old = number16(list, at + 2), from = below(2) ? 0 : below(old), piece = below(3) ? old - from : 1 + below(old - from);
    memcpy(bytes, list + at + 4 + from, piece);
    return piece < string_length && below(2) ? string_length : piece;
}

/* Any list: what is taken is searched, the rest is refused with the reading's number. */
static void random_lists(int rounds) {
    while (rounds--) {
        uint8_t bytes[32];
        uint32_t count = rounds % 40 ? 1 + below(14) : 64 - below(3), letters = rounds % 7 ? 1 + below(4) : 256, longest = rounds % 11 ? 1 + below(9) : 32;
        begin_list();
        while (count--) {
            uint32_t label = some_label();
            add(label, bytes, some_string(bytes, letters, longest));
        }
        if (reference_strings(list, length, wanted, LONGEST_TABLE).refused) compared(STRINGS, list, length, 0, 0, LONGEST_TABLE);
        else taken(rounds % 5 ? 1 : 3);
    }
}

/* Counts, lengths, labels and bytes changed in a list, and bytes taken from it or added. */
static void damaged(int rounds) {
    static uint64_t seen[29];
    while (rounds--) {
        uint8_t bytes[32];
        begin_list();
        for (uint32_t count = 1 + below(6); count; count--) {
            uint32_t label = some_label();
            add(label, bytes, some_string(bytes, 3, 5));
        }
        size_t at = place_of(below(number16(list, 0)));
        switch (below(6)) {
        case 0: set16(list, 0, below(3) ? number16(list, 0) + below(3) - 1 : below(65536)); break;
        case 1: set16(list, at, below(2) ? 0 : number16(list, 2)); break;
        case 2: set16(list, at + 2, below(3) ? number16(list, at + 2) + below(3) - 1 : below(2) ? below(40) : below(65536)); break;
        case 3: length -= 1 + below((uint32_t)length); break;
        case 4: list[length++] = (uint8_t)below(3); break;
        default: list[below((uint32_t)length)] ^= (uint8_t)(1 << below(8));
        }
        size_t room = below(3) ? LONGEST_TABLE : below(600);
        seen[reference_strings(list, length, wanted, room).refused]++;
        compared(STRINGS, list, length, 0, 0, room);
    }
    static const uint32_t grounds[] = {0, 16, 26, 27};
    for (size_t i = 0; i < sizeof grounds / sizeof *grounds; i++)
        if (!seen[grounds[i]]) fail("a ground was never given", grounds[i]);
}

/* A list of single letters, each with a label of its own; 0 to 65 of them. */
static void counts(void) {
    for (uint32_t count = 0; count <= 66; count++) {
        begin_list();
        for (uint32_t i = 0; i < count; i++) add(1000 - i, (uint8_t[]){(uint8_t)(3 * i)}, 1);
        if (count == 0 || count > 64) answers(26, "a count of 0, or above 64");
        else taken(1);
    }
    /* A count whose low byte alone would do. */
    begin_list();
    add(1, "a", 1);
    set16(list, 0, 257);
    answers(26, "a count of 257");
}

static void lengths(void) {
    uint8_t bytes[40];
    for (uint32_t i = 0; i < sizeof bytes; i++) bytes[i] = (uint8_t)(i * i);
    for (uint32_t string_length = 0; string_length <= 34; string_length++)
        for (int first = 0; first < 2; first++) {
            begin_list();
            if (!first) add(9, "ab", 2);
            add(7, bytes, string_length);
            if (first) add(9, "ab", 2);
            if (string_length == 0 || string_length > 32) answers(26, "a length of 0, or above 32");
            else taken(1);
        }
}

/* Every truncation of a list, and every byte too many, is 26, whatever its labels. */
static void truncations(void) {
    static const char *const words[] = {"he", "she", "his", "hers", "he"};
    for (int bad = 0; bad < 2; bad++) {
        begin_list();
        for (uint32_t i = 0; i < 5; i++) add(bad ? i % 2 : i + 1, words[i], strlen(words[i]));
        size_t whole = length;
        for (length = 0; length < whole; length++) answers(26, "a list that was cut");
        for (; length < whole + 3; length++, list[length - 1] = 0) {
            if (length > whole) answers(26, "bytes left over");
            else answers(bad ? 27 : 0, "the whole list");
        }
        /* A count too small leaves bytes over, one too large ends too early. */
        length = whole;
        for (uint32_t count = 1; count < 10; count++) {
            set16(list, 0, count);
            answers(count != 5 ? 26 : bad ? 27 : 0, "another count");
        }
    }
}

static void labels(void) {
    for (uint32_t at = 0; at < 3; at++) {
        begin_list();
        for (uint32_t i = 0; i < 3; i++) add(i == at ? 0 : 65535 - i, "abc" + i, 3 - i);
        answers(27, "the label 0");
    }
    for (uint32_t x = 0; x < 4; x++)
        for (uint32_t y = 0; y < x; y++) {
            begin_list();
            for (uint32_t i = 0; i < 4; i++) add(i == x ? 300 + y : 300 + i, "ab", 1 + i % 2);
            answers(27, "a label twice, with the same string or another");
        }
    /* Labels that only agree in a byte. */
    begin_list();
    add(256, "a", 1);
    add(512, "b", 1);
    add(2, "ab", 2);
    add(258, "ab", 2);
    taken(4);
}

/* Strings of one letter: the state of j letters has j labels. With 16 all is well, with 17 it is 19; equal strings count like others. */
static void crowds(void) {
    uint8_t bytes[32];
    memset(bytes, 'z', sizeof bytes);
    for (uint32_t equal = 0; equal < 2; equal++)
        for (uint32_t count = 14; count <= 20; count++) {
            begin_list();
            for (uint32_t i = 0; i < count; i++) add(60000 - 7 * i, bytes, equal ? 3 : 1 + i);
            if (count > 16) answers(19, "17 labels on a state");
            else taken(4);
        }
    /* 17 endings of a beginning that is no string's end. */
    for (uint32_t count = 16; count <= 17; count++) {
        begin_list();
        for (uint32_t i = 0; i < count; i++) add(i + 1, bytes, 1 + i);
        bytes[0] = bytes[31] = 'q';
        add(99, bytes, 32);
        bytes[0] = bytes[31] = 'z';
        if (count > 16) answers(19, "17 labels within a string");
        else taken(4);
    }
}

/* 16 strings of 32 bytes that share nothing have 513 states; a byte less in any is 512. Where a state has 17 labels too it is 19, however many states there are. */
static void states(void) {
    uint8_t bytes[32];
    for (uint32_t shorter = 0; shorter <= 2; shorter++) {
        begin_list();
        for (uint32_t i = 0; i < 16; i++) {
            for (uint32_t j = 0; j < 32; j++) bytes[j] = (uint8_t)(j ? 16 + (7 * i + j) % 240 : i);
            add(1 + i, bytes, i == 15 ? 32 - shorter : 32);
        }
        if (!shorter) answers(28, "513 states");
        else taken(2);
        if (shorter == 1 && most_states != 512) fail("512 states", most_states);
    }
    /* Up to 64 strings of 32 bytes with up to 2,049 states, alike in their first bytes; 17 labels on a state before or behind them, or 16 before. */
    for (uint32_t crowd = 0; crowd < 4; crowd++)
        for (uint32_t alike = 0; alike <= 32; alike += 8) {
            begin_list();
            memset(bytes, 1, sizeof bytes);
            for (uint32_t i = 0; crowd == 1 && i < 17; i++) add(500 + i, bytes, 1 + i);
            for (uint32_t i = 0; crowd == 3 && i < 16; i++) add(500 + i, bytes, 1 + i);
            for (uint32_t i = number16(list, 0); i < (crowd == 2 ? 47u : 64u); i++) {
                for (uint32_t j = 0; j < 32; j++) bytes[j] = (uint8_t)(j < alike ? 2 + j : j == alike ? 100 + i : 40 + (i + j) % 50);
                add(1 + i, bytes, 32);
            }
            memset(bytes, 1, sizeof bytes);
            for (uint32_t i = 0; crowd == 2 && i < 17; i++) add(500 + i, bytes, 1 + i);
            if (crowd == 1 || crowd == 2 || alike == 32) answers(19, "19 before 28");
            else answers(crowd == 3 && alike == 24 ? 0 : 28, "64 strings of up to 32 bytes, with 425 states or more than 512");
        }
    /* 64 strings of 32 bytes that part in the last bytes are taken: 32 and 64 times 7 states, and 31 and 64. */
    for (uint32_t alike = 25; alike < 32; alike += 6) {
        begin_list();
        for (uint32_t i = 0; i < 64; i++) {
            for (uint32_t j = 0; j < 32; j++) bytes[j] = (uint8_t)(j < alike ? j % 3 : j == alike ? 4 * i + j % 3 : i + j);
            add(64 - i, bytes, 32);
        }
        taken(2);
    }
}

/* All 256 bytes in use: no class for the others, and a byte's class is the byte. With one byte less that byte has class 0 and the others rise from 1. */
static void all_bytes(void) {
    for (uint32_t missing = 0; missing <= 256; missing += missing == 255 ? 1 : missing == 128 ? 127 : missing == 0 ? 128 : 1) {
        uint8_t all[256];
        uint32_t count = 0;
        for (uint32_t x = 256; x-- > 0;)
            if (x != missing) all[count++] = (uint8_t)x;
        begin_list();
        for (uint32_t i = 0; i < 64; i++) add(1 + i, all + 4 * i, 4 * i + 4 > count ? 3 : 4);
        taken(2);
        if (number16(wanted, 2) != 256) fail("all bytes but one, or all, are 256 classes", missing);
        for (uint32_t x = 0; x < 256; x++)
            if (wanted[6 + x] != (missing == 256 ? x : x == missing ? 0 : x < missing ? x + 1 : x)) fail("a byte's class", x);
    }
}

/* The list of the paper that document 004 goes by, with its states and links: he, she, his, hers. */
static void he_she_his_hers(void) {
    static const char *const words[] = {"he", "she", "his", "hers"};
    static const uint32_t ends[] = {2, 5, 7, 9};
    begin_list();
    for (uint32_t i = 0; i < 4; i++) add(10 * (4 - i), words[i], strlen(words[i]));
    taken(20);
    if (states_in(wanted) != 10 || number16(wanted, 2) != 6) fail("ten states and six classes", 0);
    for (uint32_t i = 0; i < 4; i++)
        if (number16(wanted, 262 + 2 * ends[i]) != (i == 1 ? 2u : 1u)) fail("how many strings end at a state", i);
    /* Behind the counts, by state: he; he and she at she, rising; his; hers. */
    static const uint16_t right[] = {40, 30, 40, 20, 10};
    for (uint32_t i = 0; i < 5; i++)
        if (number16(wanted, 282 + 2 * i) != right[i]) fail("the labels", i);
}

int main(void) {
    begin(231);
    he_she_his_hers();
    counts();
    lengths();
    truncations();
    labels();
    crowds();
    states();
    all_bytes();
    random_lists(1500);
    damaged(6000);
    if (!tables || !runs || !matches || !several || most_states != 512) fail("a kind of list did not occur", cases);
    say("strings");
    printf("  %llu tables, of lists up to %llu bytes and up to %llu states; %llu walks and scans report what a search of every string at every offset finds, %llu matches, %llu of them at an offset with another\n",
           (unsigned long long)tables, (unsigned long long)longest_list, (unsigned long long)most_states, (unsigned long long)runs, (unsigned long long)matches, (unsigned long long)several);
    return 0;
}
