/* Words at random from a seeded source, and payloads made of them. */
#include "word_list.h"

#include <string.h>

#include "support.h"
#include "word_table.h"

static uint8_t letter(uint32_t k) { return k == 27 ? (uint8_t)('a' + below(26)) : (uint8_t)(48 + below(208)); }

static uint32_t class_of(uint32_t k, uint32_t x) { return k == 27 ? (x >= 'a' && x <= 'z' ? x - 'a' + 1 : 0) : (x >= 48 ? x - 47 : 0); }

size_t make_word_list(word_list *list, uint32_t k, uint8_t *table) {
    uint8_t classes[256];
    uint32_t n = 1;
    seed(7);
    list->k = k;
    list->number = 0;
    for (uint32_t x = 0; x < 256; x++) classes[x] = (uint8_t)class_of(k, x);
    words_begin(classes, k);
    while (n < 482) {
        uint32_t w = list->number++;
        list->lengths[w] = 4 + below(9);
        for (uint32_t i = 0; i < list->lengths[w]; i++) list->words[w][i] = letter(k);
        n = words_add(list->words[w], list->lengths[w]);
    }
    return words_table(table);
}

void make_overlaps(word_list *list) {
    seed(8);
    if (list->number > 64) list->number = 64;
    for (uint32_t w = 2; w < list->number; w += 3) {
        uint32_t from = 1 + below(list->lengths[w - 1] - 2);
        list->lengths[w] = list->lengths[w - 1] - from;
        memcpy(list->words[w], list->words[w - 1] + from, list->lengths[w]);
    }
}

void make_payload(const word_list *list, int near, uint8_t *payload, size_t bytes) {
    seed(7 + list->k);
    for (size_t i = 0; i < bytes;) {
        uint32_t w = below(list->number), whole = near || below(6) == 0;
        for (uint32_t j = 0; whole && j + (uint32_t)near < list->lengths[w] && i < bytes; j++) payload[i++] = list->words[w][j];
        for (uint32_t j = near ? 1 : 5; j && i < bytes; j--) payload[i++] = below(5) ? letter(list->k) : ' ';
    }
}
