/* What the reduction saves on tables put together from several word lists, where all words of a list wake the host with the list's one label: strings makes the table of all words, each label is replaced by its list's, and then reduce merges what no payload
 * tells apart any more. Sizes of the table and of its images, before and after. Every payload reports the same before and after: proved, and tried here on text. */
#include <stdio.h>
#include <string.h>

#include "kamordast.h"
#include "support.h"
#include "word_list.h"

static uint8_t list[KAMORDAST_LONGEST_LIST], table[LONGEST_TABLE], reduced[LONGEST_TABLE], image[LONGEST_IMAGE], payload[65536], before[6 * 16 * sizeof payload], after[sizeof before];
static size_t list_length, table_length;

static void add(const uint8_t *bytes, size_t length) {
    set16(list, 0, number16(list, 0) + 1);
    set16(list, list_length, number16(list, 0));
    set16(list, list_length + 2, (uint32_t)length);
    memcpy(list + list_length + 4, bytes, length);
    list_length += 4 + length;
}

/* The first 64 words at random of 4 to 12 letters. */
static void random_words(void) {
    static word_list words;
    make_word_list(&words, 27, table);
    set16(list, 0, 0);
    list_length = 2;
    for (uint32_t w = 0; w < 64; w++) add(words.words[w], words.lengths[w]);
}

/* Eight stems at random, each with eight endings. */
static void inflected_words(void) {
    static const char *const endings[8] = {"s", "ed", "er", "ing", "able", "ation", "ations", "ment"};
    uint8_t word[16];
    seed(7);
    set16(list, 0, 0);
    list_length = 2;
    for (uint32_t stem = 0; stem < 8; stem++) {
        uint32_t length = 3 + below(4);
        for (uint32_t i = 0; i < length; i++) word[i] = (uint8_t)('a' + below(26));
        for (uint32_t e = 0; e < 8; e++) {
            memcpy(word + length, endings[e], strlen(endings[e]));
            add(word, length + strlen(endings[e]));
        }
    }
}

/* The table of all words, the labels of a state replaced by those of their lists, each once: word w is of list w / whole or w % lists. */
static void make_joined(uint32_t lists, int by_turns) {
    static uint8_t made[LONGEST_TABLE];
    kamordast_built built = kamordast_strings(list, list_length, made, sizeof made);
    if (built.refused) fail("the words are refused", built.refused);
    uint32_t n = states_in(made);
    size_t from = 262 + 2 * (size_t)n, at = from;
    memcpy(table, made, from);
    for (uint32_t s = 0; s < n; s++) {
        uint64_t here = 0;
        for (uint32_t left = number16(made, 262 + 2 * s); left; left--, from += 2) {
            uint32_t word = number16(made, from) - 1;
            here |= 1ull << (by_turns ? word % lists : word * lists / 64);
        }
        uint32_t count = 0;
        for (uint32_t i = 0; i < 64; i++)
            if (here >> i & 1) set16(table, at + 2 * (size_t)count++, i + 1);
        set16(table, 262 + 2 * s, count);
        at += 2 * (size_t)count;
    }
    memcpy(table + at, made + from, built.length - from);
    table_length = at + built.length - from;
}

static unsigned image_bytes(const uint8_t *t, size_t length, uint32_t order) { return kamordast_compact_in_order(t, length, order, 2, image, sizeof image).length; }

/* Text from the start state of both: the same reports. */
static void same_reports(size_t reduced_length) {
    for (size_t i = 0; i < sizeof payload; i++) payload[i] = below(9) ? list[2 + below((uint32_t)list_length - 2)] : (uint8_t)below(256);
    kamordast_scanned a = kamordast_walk(table, table_length, number16(table, 4), payload, sizeof payload, before, sizeof before);
    kamordast_scanned b = kamordast_walk(reduced, reduced_length, number16(reduced, 4), payload, sizeof payload, after, sizeof after);
    if (a.refused || b.refused || a.reports != b.reports || memcmp(before, after, 6 * (size_t)a.reports)) fail("the reports part", a.reports);
}

static void row(const char *words, uint32_t lists, int by_turns) {
    make_joined(lists, by_turns);
    kamordast_built built = kamordast_reduce(table, table_length, reduced, sizeof reduced);
    if (built.refused) fail("the table is refused", built.refused);
    same_reports(built.length);
    printf("| %-36s | %5u | %6u | %5u | %7zu | %6u | %6u | %6u | %7u | %6u |\n", words, (unsigned)lists, (unsigned)states_in(table), (unsigned)states_in(reduced), table_length, (unsigned)built.length,
           image_bytes(table, table_length, 0), image_bytes(reduced, built.length, 0), image_bytes(table, table_length, 3), image_bytes(reduced, built.length, 3));
}

int main(void) {
    printf("| %-36s | %5s | %6s | %5s | %7s | %6s | %6s | %6s | %7s | %6s |\n", "64 words", "lists", "states", "after", "table", "after", "D 2", "after", "order 3", "after");
    printf("| :----------------------------------- | ----: | -----: | ----: | ------: | -----: | -----: | -----: | ------: | -----: |\n");
    for (uint32_t lists = 64; lists; lists /= 4) {
        random_words();
        row("at random", lists, 1);
    }
    inflected_words();
    row("8 stems, 8 endings", 64, 1);
    row("8 stems, 8 endings; a list a stem", 8, 0);
    row("8 stems, 8 endings; a list an ending", 8, 1);
    row("8 stems, 8 endings", 1, 1);
    return 0;
}
