/* Judging a plain table in C: grounds 1, 2, 3, 6, 7 and 10, in edition 2 with 19 before 3 and behind 7. The largest next state is found without a branch, so the compiler takes several at a time. */
#include "plain.h"

EACH_EDITION uint32_t judge_table(const uint8_t *table, size_t length, int second) {
    if (length < 6) return 1;
    size_t n = second ? plain_states(table) : plain_number16(table), k = plain_number16(table + 2);
    if (n < 1 || n > 512 || k < 1 || k > 256) return 2;
    if (second && length < 262 + 2 * n) return 3;
    long labels = second ? plain_labels(table + 262, n) : 0;
    if (second && labels < 0) return 19;
    if (length != 262 + 2 * n + 2 * (size_t)labels + 2 * n * k) return 3;
    if (plain_number16(table + 4) >= n) return 6;
    if (plain_classes_bad(table + 6, k)) return 7;
    if (second && plain_labels_bad(table + 262, n)) return 19;
    const uint8_t *rows = table + 262 + 2 * n + 2 * labels;
    uint16_t largest = 0;
    for (size_t i = 0; i < n * k; i++) {
        uint16_t next = plain_number16(rows + 2 * i);
        largest = next > largest ? next : largest;
    }
    return largest >= n ? 10 : 0;
}

uint32_t plain_judge_table(const uint8_t *table, size_t length) { return judge_table(table, length, 0); }
uint32_t plain_second_judge_table(const uint8_t *table, size_t length) { return judge_table(table, length, 1); }
