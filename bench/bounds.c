/* Size and hops against the bound: for each table named, compacts it in each order with bounds 0 to 12 and with 65535, which binds nothing; order 3 ignores them.
 * Prints the file, n, k, the order, the bound, the table's and the image's bytes, the hops on average over all pairs of a state and a byte, and the hops a byte of
 * the 4,096 bytes that cost the most of all from the start state. */
#include <stdio.h>

#include "costliest.h"
#include "kamordast.h"
#include "support.h"

static uint8_t table[LONGEST_TABLE + 1], image[LONGEST_IMAGE], payload[4096], room[6 * sizeof payload];

/* A pair's hops are those that the archive's scan of that one byte answers; bytes of one class are alike, so one of them is scanned. */
static double average_hops(size_t image_length) {
    uint32_t n = number16(table, 0), alike[256] = {0}, hops = 0;
    uint8_t one[256], report[6];
    for (uint32_t x = 0; x < 256; x++) {
        alike[table[6 + x]]++;
        one[table[6 + x]] = (uint8_t)x;
    }
    for (uint32_t s = 0; s < n; s++)
        for (uint32_t c = 0; c < number16(table, 2); c++) hops += alike[c] * kamordast_scan(image, image_length, s, &one[c], 1, report, sizeof report).hops;
    return hops / (256.0 * n);
}

/* The hops a byte of the hardest payload, as the archive's scan answers them. */
static double hardest_hops(size_t image_length) {
    uint32_t start = number16(table, 4);
    costliest *found = find_costliest(image, image_length, sizeof payload);
    uint32_t most = costliest_from(found, start, payload);
    forget_costliest(found);
    if (kamordast_scan(image, image_length, start, payload, sizeof payload, room, sizeof room).hops != most) fail("the hardest payload costs another number of hops", most);
    return most / (double)sizeof payload;
}

int main(int count, char **names) {
    for (int i = 1; i < count; i++) {
        FILE *file = fopen(names[i], "rb");
        if (!file) fail(names[i], 0);
        size_t length = fread(table, 1, sizeof table, file);
        fclose(file);
        for (uint32_t order = 0; order <= 3; order++)
            for (uint32_t bound = 0; bound <= 13; bound++) {
                uint16_t taken = bound == 13 ? 65535 : (uint16_t)bound;
                kamordast_built built = kamordast_compact_in_order(table, length, order, taken, image, sizeof image);
                if (built.refused) fail(names[i], built.refused);
                printf("%s %u %u %u %u %zu %u %.6f %.6f\n", names[i], (unsigned)number16(table, 0), (unsigned)number16(table, 2), (unsigned)order, (unsigned)taken, length,
                       (unsigned)built.length, average_hops(built.length), hardest_hops(built.length));
            }
    }
    return 0;
}
