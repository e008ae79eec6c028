/* Expand in C: the image's grounds, 16, then the rows, each copied from its default's and written over where the state stores an entry. */
#include "plain.h"

EACH_EDITION kamordast_built expanded(const uint8_t *image, size_t length, uint8_t *room, size_t room_length, int second) {
    uint32_t refused = second ? plain_second_judge_image(image, length) : plain_judge_image(image, length);
    if (refused) return (kamordast_built){refused, 0};
    size_t n = second ? plain_states(image) : plain_number16(image), k = plain_number16(image + 2);
    size_t labels = second ? length - 280 - 6 * n - 4 * (size_t)plain_number32(image + 8) : 0, whole = 262 + 2 * n + labels + 2 * n * k;
    if (room_length < whole) return (kamordast_built){16, 0};
    const uint8_t *records = image + 268 + 2 * n + labels, *begins[513];
    uint8_t *rows = room + 262 + 2 * n + labels;
    uint16_t defaults[512];
    plain_chains chains;
    begins[0] = records + 4 * n;
    for (size_t s = 0; s < n; s++) {
        defaults[s] = plain_number16(records + 4 * s);
        begins[s + 1] = begins[s] + 4 * plain_number16(records + 4 * s + 2);
    }
    plain_order(defaults, n, &chains);
    memcpy(room, image, 6);
    memcpy(room + 6, image + 12, 256 + 2 * n + labels);
    for (size_t i = 0; i < n; i++) {
        size_t s = chains.order[i];
        uint8_t *row = rows + 2 * s * k;
        if (defaults[s] != 65535) memcpy(row, rows + 2 * defaults[s] * k, 2 * k);
        for (const uint8_t *entry = begins[s]; entry < begins[s + 1]; entry += 4) memcpy(row + 2 * plain_number16(entry), entry + 2, 2);
    }
    return (kamordast_built){0, (uint32_t)whole};
}

kamordast_built plain_expand(const uint8_t *image, size_t length, uint8_t *room, size_t room_length) { return expanded(image, length, room, room_length, 0); }
kamordast_built plain_second_expand(const uint8_t *image, size_t length, uint8_t *room, size_t room_length) { return expanded(image, length, room, room_length, 1); }
