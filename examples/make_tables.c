/* Makes three of the supplied tables: make_tables words, make_tables rising, make_tables endings, each to standard output.
 *   words:  wakes on each of twelve words; the automaton of Aho and Corasick. Most states answer like a state nearer to the start.
 *   rising: wakes when a level falls. A level is a byte's 60th part of 256, a state is the last level, and one more state is entered on a fall. A state answers
 *           like its neighbours but for one class, so long chains pay.
 *   endings: of edition 2. Fifteen words, many of which end others: each that ends is reported, where words has a label for the longest only. */
#include <stdio.h>
#include <string.h>

#include "word_table.h"

static uint8_t table[32768];

static void add_words(const char *const *list, size_t count) {
    uint8_t classes[256] = {0};
    for (uint32_t x = 'a'; x <= 'z'; x++) classes[x] = (uint8_t)(x - 'a' + 1);
    words_begin(classes, 27);
    for (size_t w = 0; w < count; w++) words_add((const uint8_t *)list[w], strlen(list[w]));
}

static size_t words(void) {
    static const char *const list[] = {"alarm", "armed", "remote", "motion", "emotion", "notice", "station", "stations", "online", "linear", "restart", "tariff"};
    add_words(list, sizeof list / sizeof *list);
    return words_table(table);
}

static size_t endings(void) {
    static const char *const list[] = {"on", "ion", "motion", "emotion", "notion", "station", "stations", "alarm", "arm", "armed", "red", "restart", "start", "art", "tariff"};
    add_words(list, sizeof list / sizeof *list);
    return words_second_table(table);
}

static uint8_t *put16(uint8_t *at, uint32_t x) {
    at[0] = x & 255;
    at[1] = x >> 8 & 255;
    return at + 2;
}

static size_t rising(void) {
    enum { LEVELS = 60, FALLEN = LEVELS };
    uint8_t *at = put16(put16(put16(table, LEVELS + 1), LEVELS), 0);
    for (uint32_t x = 0; x < 256; x++) *at++ = (uint8_t)(x * LEVELS / 256);
    for (uint32_t s = 0; s <= FALLEN; s++) at = put16(at, s == FALLEN);
    for (uint32_t s = 0; s <= FALLEN; s++)
        for (uint32_t level = 0; level < LEVELS; level++) at = put16(at, s == FALLEN || level >= s ? level : FALLEN);
    return (size_t)(at - table);
}

int main(int count, char **given) {
    if (count != 2 || (strcmp(given[1], "words") && strcmp(given[1], "rising") && strcmp(given[1], "endings"))) {
        fprintf(stderr, "make_tables words|rising|endings\n");
        return 2;
    }
    size_t length = given[1][0] == 'w' ? words() : given[1][0] == 'r' ? rising() : endings();
    return fwrite(table, 1, length, stdout) != length || fflush(stdout) ? 3 : 0;
}
