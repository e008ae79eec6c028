/* Writes the image of the paper's table T with states 1, 2 and 3 falling to 0 to standard output; with the word 2 in edition 2, where state 2 has the labels 7 and 12. */
#include <stdio.h>
#include <string.h>

#include "reference/reference.h"
#include "support.h"

int main(int count, char **words) {
    static const uint16_t first[] = {0, 0, 7, 9}, second[] = {0, 0, 2, 1, 7, 12, 9}, rows[] = {0, 1, 0, 0, 1, 2, 0, 1, 3, 0, 1, 0};
    uint8_t table[300] = {0}, image[400];
    int edition = count == 2 && !strcmp(words[1], "2") ? 2 : 1;
    size_t labels = edition == 2 ? 7 : 4;
    set16(table, 0, edition == 2 ? 32768 + 4 : 4);
    set16(table, 2, 3);
    table[6 + 'a'] = 1;
    table[6 + 'b'] = 2;
    for (size_t i = 0; i < labels; i++) set16(table, 262 + 2 * i, (edition == 2 ? second : first)[i]);
    for (size_t i = 0; i < 12; i++) set16(table, 262 + 2 * labels + 2 * i, rows[i]);
    uint8_t defaults[8] = {255, 255};
    reference_built built = reference_write(table, 286 + 2 * labels, defaults, sizeof defaults, image, sizeof image);
    if (built.refused) return 1;
    fwrite(image, 1, built.length, stdout);
    return 0;
}
