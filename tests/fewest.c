/* Fewest entries: compact in the orders 0, 1 and 2 with a bound of n - 1 or more against every list of defaults without a circle, those that write accepts and those that it refuses with 25, on all tables of some small
 * sizes, in both editions; and tables, found by search, that show why nothing is claimed for a smaller bound or for order 3. All sums are read out of the images' bytes. */
#include <stdio.h>

#include "built.h"
#include "kamordast.h"
#include "old_loader.h"
#include "reference/reference.h"
#include "rewritten.h"
#include "there_and_back.h"

static uint64_t tables, lists, retired;

/* The entries and the defaults that an image stores: m, and the records with a default. */
static uint32_t transitions(const uint8_t *b) {
    uint32_t sum = number32(b, 8);
    size_t records = records_in(b);
    for (uint32_t s = 0; s < states_in(b); s++) sum += number16(b, records + 4 * s) != 65535;
    return sum;
}

static size_t table_length(void) { return rows_in(table) + 2 * (size_t)states_in(table) * number16(table, 2); }

/* What compact's image of the table stores. */
static uint32_t compacted(uint32_t in_order, uint16_t bound) {
    kamordast_built answer = kamordast_compact_in_order(table, table_length(), in_order, bound, image, sizeof image);
    if (answer.refused) fail("compact refuses", tables);
    if (edition_in(image) == 2) old_loader(image, answer.length, 0, tables);
    there_and_back(image, answer.length, tables);
    rewritten(image, answer.length, tables);
    return transitions(image);
}

/* What the image of the table with the defaults would store, counted in the rows; and whether one of them shares fewer than two classes with its state. */
static uint32_t counted(int *few) {
    uint32_t n = states_in(table), k = number16(table, 2), sum = 0;
    const uint8_t *rows = table + rows_in(table);
    *few = 0;
    for (uint32_t s = 0; s < n; s++) {
        uint32_t to = number16(defaults, 2 * s), shared = 0;
        for (uint32_t c = 0; to != 65535 && c < k; c++) shared += number16(rows, 2 * (s * k + c)) == number16(rows, 2 * (to * k + c));
        *few |= to != 65535 && shared < 2;
        sum += k - shared + (to != 65535);
    }
    return sum;
}

/* What write's image of the table with the defaults stores, or 0 where their chains return. Where a default shares fewer than two classes write refuses the list, and the sum is that of the rows; nothing else is
 * refused. */
static uint32_t written(void) {
    int few;
    uint32_t sum = counted(&few);
    kamordast_built answer = kamordast_write(table, table_length(), defaults, 2 * (size_t)states_in(table), image, sizeof image);
    if (answer.refused == 11) return 0;
    if (answer.refused != (few ? 25 : 0)) fail("write refuses, or does not", tables);
    retired += few;
    if (few) return sum;
    if (edition_in(image) == 2) old_loader(image, answer.length, 0, tables);
    if (transitions(image) != sum) fail("write's image stores another number", tables);
    there_and_back(image, answer.length, tables);
    return sum;
}

/* The least that an image stores, over all lists of defaults: those that write takes and those of defaults that are not worth their hops. Of n states there are (n + 1) to the power n - 1 lists without a circle. */
static uint32_t least(void) {
    uint32_t n = states_in(table), best = UINT32_MAX, all = 1, ended = 1, taken = 0;
    for (uint32_t s = 0; s < n; s++) all *= n + 1;
    for (uint32_t s = 1; s < n; s++) ended *= n + 1;
    for (uint32_t list = 0; list < all; list++) {
        for (uint32_t s = 0, rest = list; s < n; s++, rest /= n + 1) set16(defaults, 2 * s, rest % (n + 1) < n ? rest % (n + 1) : 65535);
        uint32_t sum = written();
        taken += sum > 0;
        if (sum && sum < best) best = sum;
    }
    if (taken != ended) fail("another number of lists ends", taken);
    lists += taken;
    return best;
}

/* Compact stores so many entries and defaults, in the orders 0 to 2 and with any bound that binds nothing. */
static void stores(uint32_t n, uint32_t best) {
    for (uint32_t o = 0; o < 3; o++)
        if (compacted(o, (uint16_t)(n - 1)) != best || compacted(o, 65535) != best) fail("compact does not store the fewest", tables);
}

/* One table: no list has a smaller sum than compact, whose own list is one of them. The same table in edition 2 has the same sums; of one in 20 all lists are tried again. */
static void one_table(uint32_t n, uint32_t k, const uint16_t *rows) {
    rows_of(n, k, rows);
    uint32_t best = least();
    stores(n, best);
    make_second(table, table_length(), 16);
    stores(n, best);
    if (tables % 20 == 0 && least() != best) fail("edition 2 has another least", tables);
    tables++;
}

/* In each class the next states are numbered as they first appear. Every table has such a one in which the same next states are equal, and a sum depends on
 * nothing else. */
static int numbered(uint32_t n, uint32_t k, const uint16_t *rows) {
    for (uint32_t c = 0; c < k; c++)
        for (uint32_t s = 0, seen = 0; s < n; s++) {
            if (rows[s * k + c] > seen) return 0;
            seen += rows[s * k + c] == seen;
        }
    return 1;
}

/* All tables of n states and k classes, or those whose next states are numbered so. */
static void all_tables(uint32_t n, uint32_t k, int only_numbered) {
    uint16_t rows[64] = {0};
    for (uint32_t i = 0; i < n * k;) {
        if (!only_numbered || numbered(n, k, rows)) one_table(n, k, rows);
        for (i = 0; i < n * k && ++rows[i] == n; i++) rows[i] = 0;
    }
}

/* The longest path of the trees that the defaults make. */
static uint32_t longest_path(uint32_t n, const uint16_t *falls) {
    uint32_t apart[8][8], longest = 0;
    for (uint32_t x = 0; x < n; x++)
        for (uint32_t y = 0; y < n; y++) apart[x][y] = x == y ? 0 : falls[x] == y || falls[y] == x ? 1 : 1000;
    for (uint32_t over = 0; over < n; over++)
        for (uint32_t x = 0; x < n; x++)
            for (uint32_t y = 0; y < n; y++)
                if (apart[x][over] + apart[over][y] < apart[x][y]) apart[x][y] = apart[x][over] + apart[over][y];
    for (uint32_t x = 0; x < n; x++)
        for (uint32_t y = 0; y < n; y++)
            if (apart[x][y] < 1000 && apart[x][y] > longest) longest = apart[x][y];
    return longest;
}

/* A table on which compact in an order with a bound stores more than write does with a list of defaults, whose trees have a longest path of their own. */
static void beaten(uint32_t n, uint32_t k, const uint16_t *rows, uint32_t in_order, uint16_t bound, uint32_t stores, const uint16_t *falls, uint32_t path,
                   uint32_t fewer) {
    rows_of(n, k, rows);
    if (compacted(in_order, bound) != stores) fail("compact stores another number in order", in_order);
    for (uint32_t s = 0; s < n; s++) set16(defaults, 2 * s, falls[s]);
    uint64_t so_far = retired;
    if (written() != fewer || fewer >= stores) fail("a list does not beat order", in_order);
    if (retired != so_far) fail("write refuses the list that beats order", in_order);
    if (longest_path(n, falls) != path) fail("a list has another longest path, against order", in_order);
    if (least() > fewer) fail("the least is more than a list stores, against order", in_order);
}

/* With a smaller bound another list can store fewer, and not only by longer paths: those here are no longer than the bound. On the first table all weights are 0 or
 * 1, and with the bound 1 the pair of 0 and 2 is taken first, which leaves 1 and 3 alone. On the second with the bound 2 it is taken first too, where the three
 * pairs at state 3 would all have found room. On equal rows order 1 makes two pairs, which it then cannot join. */
static void smaller_bounds(void) {
    static const uint16_t pairs[] = {0, 0, 0, 0, 1, 1, 0, 1, 0, 1, 0, 0}, two_pairs[] = {65535, 65535, 1, 0};
    static const uint16_t middle[] = {0, 0, 0, 1, 1, 0, 2, 0, 0, 1, 0, 0}, around_three[] = {65535, 3, 3, 0};
    static const uint16_t equal[8] = {0}, around_zero[] = {65535, 0, 0, 0};
    for (uint32_t o = 0; o < 3; o++) {
        beaten(4, 3, pairs, o, 1, 11, two_pairs, 1, 10);
        beaten(4, 3, middle, o, 2, 10, around_three, 2, 9);
    }
    beaten(4, 2, equal, 1, 2, 6, around_zero, 2, 5);
}

/* In order 3 a state falls only toward the start: of two equal states of one level neither falls to the other. All three states are reached. */
static void toward_start(void) {
    static const uint16_t rows[] = {2, 1, 0, 0, 0, 0}, falls[] = {65535, 65535, 1};
    beaten(3, 2, rows, 3, 0, 6, falls, 1, 5);
    beaten(3, 2, rows, 3, 65535, 6, falls, 1, 5);
}

/* The fewest entries and defaults are not the fewest bytes. No two of the three states share two classes, so compact gives no default; defaults that share one class each store as many in all, and as a record has room
 * for a default whether it is used or not, the image that write made of them until it refused such lists is 8 bytes shorter. */
static void fewer_bytes(void) {
    static const uint16_t rows[] = {0, 0, 0, 1, 1, 1}, falls[] = {65535, 0, 1};
    rows_of(3, 2, rows);
    for (uint32_t o = 0; o < 3; o++)
        if (compacted(o, 2) != 6 || number32(image, 8) != 6 || number32(image, 322 - 8) != 322) fail("the three states in order", o);
    for (uint32_t s = 0; s < 3; s++) set16(defaults, 2 * s, falls[s]);
    if (kamordast_write(table, 280, defaults, 6, image, sizeof image).refused != 25) fail("the list for the three states is 25", 0);
    if (reference_image(table, 280, defaults, 6, image, sizeof image).length != 314 || transitions(image) != 6 || number32(image, 8) != 4) fail("the image of the three states", 0);
    there_and_back(image, 314, 0);
}

/* The example tables, as docs/OPERATORS.md has them: entries and defaults in the orders 0 to 2 with a bound of n - 1, and those of order 3. */
static void examples(void) {
    static const struct {
        const char *name;
        uint32_t entries, used, entries3, used3;
    } known[] = {{"examples/four-states.table", 5, 3, 5, 3}, {"examples/words.table", 83, 65, 83, 65}, {"examples/rising.table", 119, 60, 1831, 59}};
    for (size_t i = 0; i < 3; i++) {
        FILE *file = fopen(known[i].name, "rb");
        if (!file || !fread(table, 1, sizeof table, file)) fail("an example table cannot be read", i);
        fclose(file);
        for (uint32_t o = 0; o < 4; o++) {
            uint32_t entries = o < 3 ? known[i].entries : known[i].entries3, used = o < 3 ? known[i].used : known[i].used3;
            if (compacted(o, (uint16_t)(states_in(table) - 1)) != entries + used || number32(image, 8) != entries) fail(known[i].name, o);
        }
    }
}

int main(void) {
    begin(21);
    for (uint32_t k = 1; k <= 4; k++) all_tables(1, k, 0);
    for (uint32_t k = 1; k <= 4; k++) all_tables(2, k, 0);
    for (uint32_t k = 1; k <= 3; k++) all_tables(3, k, 0);
    for (uint32_t k = 1; k <= 3; k++) all_tables(4, k, 1);
    printf("fewest entries: %llu tables in both editions, none of %llu lists of defaults stores fewer, nor do the %llu of them that write refuses with 25\n", (unsigned long long)tables, (unsigned long long)lists,
           (unsigned long long)retired);
    smaller_bounds();
    toward_start();
    fewer_bytes();
    examples();
    printf("fewest entries: a smaller bound is beaten on three tables, order 3 on one, the bytes on one; three examples store what the sheet says\n");
    return 0;
}
