/* The cases: word lists in both editions, the largest tables, and images made to hurt. */
#include "cases.h"

#include <stdio.h>
#include <string.h>

#include "hostile.h"
#include "operations.h"
#include "patches.h"
#include "plain.h"
#include "word_list.h"

char case_name[96];
static word_list list;

/* The image that compact makes of the table in an order with a bound, and its defaults as a list for write. */
static void use_compacted(uint32_t order, uint32_t bound) {
    kamordast_built built = kamordast_compact_in_order(given.table, given.table_length, order, (uint16_t)bound, given.image, sizeof given.image);
    if (built.refused) fail("the table is refused", built.refused);
    uint32_t n = states_in(given.image);
    given.bound = bound;
    given.image_length = built.length;
    given.defaults_length = 2 * n;
    for (uint32_t s = 0; s < n; s++) memcpy(given.defaults + 2 * s, given.image + records_in(given.image) + 4 * s, 2);
}

/* The image of the table with the list, by plain C: write refuses those whose defaults are not worth their hops, and here they are asked for. */
static void use_written(const char *name) {
    uint16_t defaults[512];
    plain_chains chains;
    given.defaults_length = 1024;
    for (uint32_t s = 0; s < 512; s++) defaults[s] = (uint16_t)number16(given.defaults, 2 * s);
    if (!plain_order(defaults, 512, &chains)) fail("the list has a circle", 0);
    kamordast_built built = plain_image(given.table, given.table_length, defaults, &chains, given.image, sizeof given.image);
    if (built.refused || kamordast_judge_image(given.image, built.length)) fail("the image is refused", built.refused);
    given.image_length = built.length;
    snprintf(case_name, sizeof case_name, "%s", name);
}

void use_words(uint32_t k, uint32_t bound) {
    given.table_length = make_word_list(&list, k, given.table);
    use_compacted(0, bound);
    snprintf(case_name, sizeof case_name, "words, n %u, k %u, D %u", (unsigned)number16(given.table, 0), (unsigned)k, (unsigned)bound);
}

/* Makes the table at hand one of edition 2: a state that had a label has one to four, or each state 16. */
static void into_lists(int full) {
    uint32_t n = states_in(given.table), behind = 0;
    uint16_t labels[512], counts[512];
    size_t rows = 262 + 2 * (size_t)n, at = rows;
    for (uint32_t s = 0; s < n; s++) {
        labels[s] = (uint16_t)number16(given.table, 262 + 2 * s);
        counts[s] = (uint16_t)(full ? 16 : labels[s] ? 1 + labels[s] % 4 : 0);
        behind += counts[s];
        set16(given.table, 262 + 2 * s, counts[s]);
    }
    memmove(given.table + rows + 2 * behind, given.table + rows, given.table_length - rows);
    for (uint32_t s = 0; s < n; s++)
        for (uint32_t i = 0; i < counts[s]; i++, at += 2) set16(given.table, at, (full ? s : 4u * labels[s]) + i + 1);
    set16(given.table, 0, 32768 + n);
    given.table_length += 2 * behind;
}

void use_lists(uint32_t k, uint32_t bound) {
    given.table_length = make_word_list(&list, k, given.table);
    into_lists(0);
    use_compacted(0, bound);
    snprintf(case_name, sizeof case_name, "lists, n %u, k %u, D %u", (unsigned)states_in(given.table), (unsigned)k, (unsigned)bound);
}

void use_full_lists(uint32_t bound) {
    seed(7);
    given.table_length = make_table(given.table, 512, 256, 200);
    into_lists(1);
    use_compacted(0, bound);
    snprintf(case_name, sizeof case_name, "full lists, n 512, k 256, D %u", (unsigned)bound);
    given.state = 0;
    given.payload_length = 4096;
    for (size_t i = 0; i < given.payload_length; i++) given.payload[i] = (uint8_t)below(256);
}

void use_payload(int near) {
    size_t end = strlen(case_name);
    given.state = 0;
    given.payload_length = sizeof given.payload;
    make_payload(&list, near, given.payload, given.payload_length);
    snprintf(case_name + end, sizeof case_name - end, near ? ", near misses" : ", text");
}

/* The next state in a table of equal rows, or of rows that change little from one state to the next. */
static uint32_t next_of(const char *shape, uint32_t s, uint32_t c) { return *shape == 'e' || s < c ? 0 : c < s / 2 ? s : 1; }

void use_largest(const char *shape, uint32_t bound) {
    const uint32_t n = 512, k = 256;
    seed(7);
    given.table_length = make_table(given.table, n, k, 200);
    for (uint32_t s = 0; s < n && *shape != 'r'; s++)
        for (uint32_t c = 0; c < k; c++) set16(given.table, 262 + 2 * n + 2 * (s * k + c), next_of(shape, s, c));
    use_compacted(0, bound);
    snprintf(case_name, sizeof case_name, "%s rows, n %u, k %u, D %u", shape, (unsigned)n, (unsigned)k, (unsigned)bound);
}

void use_levels(uint32_t bound) {
    const uint32_t n = 512, k = 256;
    seed(7);
    given.table_length = make_levels(given.table, n, k, 200, n, 1);
    use_compacted(0, bound);
    snprintf(case_name, sizeof case_name, "511 levels, n %u, k %u, D %u", (unsigned)n, (unsigned)k, (unsigned)bound);
}

void use_order(uint32_t order) {
    use_compacted(order, given.bound);
    if (order == 3) *strstr(case_name, ", D") = 0;
}

void use_forward(void) {
    static uint8_t moved[LONGEST_IMAGE];
    kamordast_built built = kamordast_forward(given.image, given.image_length, moved, sizeof moved);
    if (built.refused) fail("the image is refused", built.refused);
    memcpy(given.image, moved, built.length);
    given.image_length = built.length;
}

void use_patch(uint32_t number) {
    static parts listing;
    size_t end = strlen(case_name);
    listing.p = 0;
    for (uint32_t i = 0; i < number; i++) list_state(&listing, given.image, i * states_in(given.image) / number);
    listing.depth = number16(given.image, 6);
    listing.worst = number16(given.image, given.image_length - 4);
    given.patch_length = put_patch(&listing, given.image, given.image_length, given.patch);
    if (kamordast_judge_patch(given.image, given.image_length, given.patch, given.patch_length)) fail("the patch is refused", number);
    snprintf(case_name + end, sizeof case_name - end, ", p %u", (unsigned)number);
}

void use_unworthy(void) {
    given.table_length = make_unworthy(given.table, given.defaults);
    use_written("256 of 511 defaults not worth it");
}

void use_flat(void) {
    given.table_length = make_flat(given.table, given.defaults);
    use_written("to compare: 128 entries a state, flat");
}

void use_chain(void) {
    given.table_length = make_chain(given.table, given.defaults);
    use_written("hostile: the same in one chain of 511");
}

void use_patched_chain(void) {
    use_chain();
    snprintf(case_name, sizeof case_name, "hostile: one chain of 511");
    use_patch(64);
}

void use_detour(void) {
    uint8_t asked;
    given.table_length = make_detour(given.table, given.defaults, &asked);
    use_written("hostile: 4,096 bytes, 511 hops each");
    given.state = 511;
    given.payload_length = 4096;
    memset(given.payload, asked, given.payload_length);
}
