/* The cases that are tables without an image: word lists for strings, and tables to reduce. */
#include "cases.h"

#include <stdio.h>
#include <string.h>

#include "hostile.h"
#include "operations.h"
#include "word_list.h"

static word_list words;

/* Names the table at hand. */
static void name_table(const char *name) { snprintf(case_name, sizeof case_name, "%s, n %u, k %u", name, (unsigned)states_in(given.table), (unsigned)number16(given.table, 2)); }

/* Begins an empty word list; adds a string with the next label. */
static void begin_list(void) {
    set16(given.list, 0, 0);
    given.list_length = 2;
}

static void add_string(const uint8_t *bytes, uint32_t length) {
    uint8_t *at = given.list + given.list_length;
    set16(given.list, 0, number16(given.list, 0) + 1);
    set16(at, 0, number16(given.list, 0));
    set16(at, 2, length);
    memcpy(at + 4, bytes, length);
    given.list_length += 4 + length;
}

/* The table of the word list at hand. */
static void use_table_of_list(const char *name) {
    kamordast_built built = kamordast_strings(given.list, given.list_length, given.table, sizeof given.table);
    if (built.refused) fail("the word list is refused", built.refused);
    given.table_length = built.length;
    name_table(name);
}

void use_listed_words(uint32_t k) {
    make_word_list(&words, k, given.table);
    begin_list();
    for (uint32_t w = 0; w < words.number && w < KAMORDAST_MOST_STRINGS; w++) add_string(words.words[w], words.lengths[w]);
    char name[40];
    snprintf(name, sizeof name, "%u words", (unsigned)number16(given.list, 0));
    use_table_of_list(name);
}

void use_overlapping_strings(void) {
    uint8_t bytes[32];
    begin_list();
    memset(bytes, 'a', sizeof bytes);
    for (uint32_t length = 17; length <= 32; length++) add_string(bytes, length);
    /* 48 strings: 22 letters that all share, one of their own, and nine in which they all end alike; of the last the last is missing, so that there are 512 states. */
    for (uint32_t i = 0; i < 48; i++) {
        bytes[22] = (uint8_t)(128 + i);
        add_string(bytes, i < 47 ? 32 : 31);
    }
    use_table_of_list("hostile: 64 strings");
}

void use_shared_labels(uint32_t k) {
    given.table_length = make_word_list(&words, k, given.table);
    for (uint32_t s = 0; s < states_in(given.table); s++) {
        uint32_t word = number16(given.table, 262 + 2 * s);
        if (word) set16(given.table, 262 + 2 * s, words.words[word - 1][0] % 8u + 1);
    }
    name_table("words, 8 labels");
}

void use_fourfold(void) {
    const uint32_t n = 512, k = 256, single = n / 4;
    static uint8_t once[LONGEST_TABLE];
    seed(7);
    make_table(once, single, k, 100);
    given.table_length = make_table(given.table, n, k, 0);
    for (uint32_t s = 0; s < n; s++) {
        set16(given.table, 262 + 2 * s, s % single % 3);
        for (uint32_t c = 0; c < k; c++) set16(given.table, 262 + 2 * n + 2 * (s * k + c), number16(once, 262 + 2 * single + 2 * (s % single * k + c)) + single * below(4));
    }
    name_table("four times over");
}

void use_splitting_chain(void) {
    given.table_length = make_splitting(given.table);
    name_table("hostile: a chain");
}
