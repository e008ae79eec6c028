/* The program `bounds` against the independent reading, every byte that it prints: random tables of both editions up to the longest, damaged ones, every cut of one, and inputs around 30,000
 * bytes. */
#include <stdio.h>
#include <string.h>

#include "program.h"
#include "reference/programs.h"
#include "reference/reference.h"
#include "support.h"

enum { LONGEST_INPUT = 30000 };

static uint8_t table[LONGEST_TABLE];
static uint64_t cases, given[20], too_long;

/* What the program prints of the table's first bytes. */
static void agree(size_t length) {
    static char text[REFERENCE_TEXT];
    unsigned number = 0;
    size_t text_length = reference_bounds_text(table, length, text);
    expect_text(table, length, text, text_length, cases++);
    if (!strcmp(text, "too long\n")) too_long++;
    else if (sscanf(text, "refused %u\n", &number) == 1) given[number]++;
    else given[0]++;
}

static void random_tables(int rounds) {
    while (rounds--) {
        uint32_t n = 1 + below(below(6) ? 14 : 60), k = 1 + below(below(6) ? 9 : 256);
        size_t length = either_edition(table, below(4) ? make_table(table, n, k, below(257)) : make_levels(table, n, k, below(257), 1 + below(n), 1 + below(3)));
        agree(length);
        if (below(2)) continue;
        for (int damage = below(3); damage >= 0; damage--) {
            size_t at = below(4) ? below((uint32_t)length) : below(2) ? below(6) : 262 + below(2 * n);
            table[at] = below(2) ? (uint8_t)below(256) : (uint8_t)(table[at] + 1);
        }
        agree(below(4) ? length : below((uint32_t)length + 1));
    }
}

/* The table in edition 2 with 16 labels on every state. */
static size_t full_lists(size_t length) {
    uint32_t n = states_in(table);
    memmove(table + 262 + 34 * (size_t)n, table + 262 + 2 * (size_t)n, length - 262 - 2 * (size_t)n);
    for (uint32_t s = 0; s < n; s++) set16(table, 262 + 2 * s, 16);
    for (uint32_t i = 0; i < 16 * n; i++) set16(table, 262 + 2 * n + 2 * i, 1 + i);
    set16(table, 0, 32768 + n);
    return length + 32 * (size_t)n;
}

/* Of 512 states with 28 classes and 29,958 bytes, the longest image; and 252 with 58, the longest table that there is below 30,000 bytes. */
static void longest(void) {
    agree(make_table(table, 512, 28, 0));
    agree(make_table(table, 512, 28, 250));
    size_t length = make_table(table, 252, 58, 200);
    if (length != 29998) fail("a table of 29,998 bytes", length);
    agree(length);
    /* Of edition 2 with 16 labels on every state the same: 512 states and 12 classes; and 512 with 28, which the labels make too long. */
    agree(full_lists(make_table(table, 512, 12, 200)));
    agree(full_lists(make_table(table, 512, 28, 200)));
}

/* The length is tested first, whatever the bytes are. */
static void limits(void) {
    make_table(table, 512, 200, 128);
    agree(LONGEST_INPUT);
    agree(LONGEST_INPUT + 1);
    agree(2 * LONGEST_INPUT);
    memset(table, 0, sizeof table);
    agree(LONGEST_INPUT);
    agree(LONGEST_INPUT + 1);
}

int main(int count, char **words) {
    use_program(count, words);
    seed(15);
    limits();
    longest();
    size_t length = make_table(table, 4, 3, 128);
    for (size_t cut = 0; cut <= length; cut++) agree(cut);
    length = full_lists(length);
    for (size_t cut = 0; cut <= length; cut++) agree(cut);
    random_tables(500);
    static const int grounds[] = {0, 1, 2, 3, 6, 7, 10, 19};
    for (size_t i = 0; i < sizeof grounds / sizeof *grounds; i++)
        if (!given[grounds[i]]) fail("a number that was never given", (uint64_t)grounds[i]);
    if (!too_long) fail("too long is to be seen", cases);
    printf("bounds: %llu texts agree, %llu of them too long\n  given  ", (unsigned long long)cases, (unsigned long long)too_long);
    for (int r = 0; r < 20; r++)
        if (given[r]) printf(" %d:%llu", r, (unsigned long long)given[r]);
    printf("\n");
    return 0;
}
