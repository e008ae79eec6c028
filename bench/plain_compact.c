/* Compact in C: 18, the table's grounds, the defaults of the order, then the image of the table with them. */
#include "plain.h"

EACH_EDITION kamordast_built compacted(const uint8_t *table, size_t length, uint32_t order, uint32_t bound, int seeking, uint8_t *room, size_t room_length, int second) {
    if (order > 3) return (kamordast_built){18, 0};
    uint32_t refused = second ? plain_second_judge_table(table, length) : plain_judge_table(table, length);
    if (refused) return (kamordast_built){refused, 0};
    uint16_t defaults[512];
    plain_chains chains;
    (second ? plain_second_defaults : plain_defaults)(table, length, order, bound, seeking, defaults);
    if (!plain_order(defaults, second ? plain_states(table) : plain_number16(table), &chains)) return (kamordast_built){11, 0};
    return (second ? plain_second_image : plain_image)(table, length, defaults, &chains, room, room_length);
}

kamordast_built plain_compact(const uint8_t *table, size_t length, uint32_t order, uint32_t bound, int seeking, uint8_t *room, size_t room_length) {
    return compacted(table, length, order, bound, seeking, room, room_length, 0);
}

kamordast_built plain_second_compact(const uint8_t *table, size_t length, uint32_t order, uint32_t bound, int seeking, uint8_t *room, size_t room_length) {
    return compacted(table, length, order, bound, seeking, room, room_length, 1);
}
