/* Write in C: the table's grounds, 8 for the list, 11, then the image of the table with the list, or 25. */
#include "plain.h"

EACH_EDITION kamordast_built written(const uint8_t *table, size_t length, const uint8_t *list, size_t list_length, uint8_t *room, size_t room_length, int second) {
    uint32_t refused = second ? plain_second_judge_table(table, length) : plain_judge_table(table, length);
    if (refused) return (kamordast_built){refused, 0};
    size_t n = second ? plain_states(table) : plain_number16(table);
    uint16_t defaults[512];
    plain_chains chains;
    if (list_length != 2 * n) return (kamordast_built){8, 0};
    memcpy(defaults, list, 2 * n);
    for (size_t s = 0; s < n; s++)
        if (defaults[s] >= n && defaults[s] != 65535) return (kamordast_built){8, 0};
    if (!plain_order(defaults, n, &chains)) return (kamordast_built){11, 0};
    return (second ? plain_second_listed_image : plain_listed_image)(table, length, defaults, &chains, room, room_length);
}

kamordast_built plain_write(const uint8_t *table, size_t length, const uint8_t *list, size_t list_length, uint8_t *room, size_t room_length) {
    return written(table, length, list, list_length, room, room_length, 0);
}

kamordast_built plain_second_write(const uint8_t *table, size_t length, const uint8_t *list, size_t list_length, uint8_t *room, size_t room_length) {
    return written(table, length, list, list_length, room, room_length, 1);
}
