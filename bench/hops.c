/* Hops over whole payloads: for both word lists the image in the orders 0 to 2 with some bounds and in order 3, which has none; its bytes and its worst, and the
 * hops of 65,536 bytes from the start state, of text, of near misses and of the payload that costs the most of all of that length. Prints a table; ends with status
 * 1 where the archive's scan of that payload has another number of hops, or in order 3 as many as bytes. */
#include <stdio.h>

#include "costliest.h"
#include "kamordast.h"
#include "support.h"
#include "word_list.h"

static uint8_t table[LONGEST_TABLE], image[LONGEST_IMAGE], payload[65536], room[6 * 65536];
static word_list list;

static uint32_t hops_of(size_t length) {
    kamordast_scanned r = kamordast_scan(image, length, number16(image, 4), payload, sizeof payload, room, sizeof room);
    if (r.refused || r.taken != sizeof payload) fail("the scan", r.refused);
    return r.hops;
}

/* A row: the image of the table in an order with a bound. */
static void print_row(size_t table_length, uint32_t order, uint32_t bound) {
    kamordast_built built = kamordast_compact_in_order(table, table_length, order, (uint16_t)bound, image, sizeof image);
    if (built.refused) fail("compact", built.refused);
    printf("| words, k %u | %u | ", (unsigned)list.k, (unsigned)order);
    if (order < 3) printf("%u", (unsigned)bound);
    printf(" | %u | %u", (unsigned)built.length, (unsigned)number16(image, built.length - 4));
    for (int near = 0; near < 2; near++) {
        make_payload(&list, near, payload, sizeof payload);
        printf(" | %u", (unsigned)hops_of(built.length));
    }
    costliest *found = find_costliest(image, built.length, sizeof payload);
    uint32_t most = costliest_from(found, number16(image, 4), payload), hops = hops_of(built.length);
    forget_costliest(found);
    if (hops != most) fail("the costliest payload costs another number of hops", hops);
    if (order == 3 && hops >= sizeof payload) fail("as many hops as bytes in order 3", hops);
    printf(" | %u |\n", (unsigned)hops);
}

int main(void) {
    static const uint32_t bounds[] = {2, 4, 8};
    printf("| table | order | D | image bytes | worst | text | near misses | hardest |\n|---|---:|---:|---:|---:|---:|---:|---:|\n");
    for (uint32_t k = 27; k <= 209; k += 182) {
        size_t length = make_word_list(&list, k, table);
        for (uint32_t order = 0; order < 3; order++)
            for (size_t i = 0; i < 3; i++) print_row(length, order, bounds[i]);
        print_row(length, 3, 0);
    }
    return 0;
}
