/* What a patch saves. Of a table each rule in turn is taken out, that is, what led to its state leads to the start state; the table is compacted as before, and the patch from the image of before to that one is made and applied. Bytes of the image and of the patches, and in how many
 * cases there is none, since more than 64 states are others. */
#include <stdio.h>
#include <stdlib.h>
#include <string.h>

#include "kamordast.h"
#include "patches.h"
#include "support.h"
#include "word_list.h"

static uint8_t table[LONGEST_TABLE], without[LONGEST_TABLE], before[LONGEST_IMAGE], after[LONGEST_IMAGE], applied[LONGEST_IMAGE], patch[LONGEST_PATCH];
static size_t length;

/* The table without the rule of a state; answers how many next states are others. */
static uint32_t take_out(uint32_t state) {
    uint32_t n = states_in(table), k = number16(table, 2), taken = 0;
    size_t rows = rows_in(table);
    memcpy(without, table, length);
    for (uint32_t i = 0; i < n * k; i++) {
        if (number16(table, rows + 2 * (size_t)i) != state) continue;
        set16(without, rows + 2 * (size_t)i, number16(table, 4));
        taken++;
    }
    return taken;
}

/* The bytes of the patch from one image to the other, or 0 where there is none. It is applied, and makes the other. */
static size_t sent(size_t before_length, size_t after_length, uint32_t *states) {
    static parts listing;
    listing.p = 0;
    *states = list_differences(&listing, before, after);
    if (*states > KAMORDAST_MOST_PATCHED || *states == 0) return 0;
    listing.depth = number16(after, 6);
    listing.worst = number16(after, after_length - 4);
    size_t bytes = put_patch(&listing, before, before_length, patch);
    kamordast_built built = kamordast_apply(before, before_length, patch, bytes, applied, sizeof applied);
    if (built.refused || built.length != after_length || memcmp(applied, after, after_length)) fail("the patch does not make the image", built.refused);
    return bytes;
}

static int by_size(const void *a, const void *b) {
    size_t x = *(const size_t *)a, y = *(const size_t *)b;
    return (x > y) - (x < y);
}

static void row(const char *name, uint32_t order, uint32_t bound) {
    size_t bytes[512];
    uint32_t rules = 0, made = 0, most_states = 0, states;
    kamordast_built old = kamordast_compact_in_order(table, length, order, (uint16_t)bound, before, sizeof before);
    for (uint32_t s = 0; s < states_in(table); s++) {
        if (!number16(table, 262 + 2 * (size_t)s) || !take_out(s)) continue;
        kamordast_built new = kamordast_compact_in_order(without, length, order, (uint16_t)bound, after, sizeof after);
        if (old.refused || new.refused) fail("a table is refused", old.refused + new.refused);
        size_t own = sent(old.length, new.length, &states);
        rules++;
        if (!own) continue;
        bytes[made++] = own;
        if (states > most_states) most_states = states;
    }
    qsort(bytes, made, sizeof *bytes, by_size);
    char how[32];
    if (order == 3) snprintf(how, sizeof how, "order 3");
    else snprintf(how, sizeof how, "order %u, D %u", (unsigned)order, (unsigned)bound);
    printf("| %-28s | %-16s | %6u | %5u | %7u | ", name, how, (unsigned)states_in(table), (unsigned)rules, (unsigned)old.length);
    if (made) printf("%6zu | %6zu | %6zu | %6u | %7u |\n", bytes[0], bytes[made / 2], bytes[made - 1], (unsigned)most_states, (unsigned)(rules - made));
    else printf("%6s | %6s | %6s | %6s | %7u |\n", "-", "-", "-", "-", (unsigned)rules);
}

static void rows(const char *name) {
    row(name, 0, 2);
    row(name, 0, 65535);
    row(name, 3, 0);
}

static void example(const char *name) {
    FILE *f = fopen(name, "rb");
    if (!f) fail(name, 0);
    length = fread(table, 1, sizeof table, f);
    fclose(f);
    rows(name);
}

int main(void) {
    static word_list words;
    printf("| %-28s | %-16s | %6s | %5s | %7s | %6s | %6s | %6s | %6s | %7s |\n", "table", "image", "states", "rules", "image", "least", "median", "most", "states", "without");
    printf("| :--------------------------- | :--------------- | -----: | ----: | ------: | -----: | -----: | -----: | -----: | ------: |\n");
    example("examples/words.table");
    example("examples/endings.table");
    length = make_word_list(&words, 27, table);
    rows("words, n 484, k 27");
    return 0;
}
