/* The moves of an accepted image to the other edition in C: 20, going back 21, 16, then all but the labels copied as it stands. */
#include "plain.h"

/* How many states have a label in edition 1, or a list that is not empty in edition 2. */
static size_t labelled(const uint8_t *words, size_t n) {
    size_t some = 0;
    for (size_t s = 0; s < n; s++) some += plain_number16(words + 2 * s) != 0;
    return some;
}

/* Ground 21: a list is longer than one. */
static int several(const uint8_t *counts, size_t n) {
    uint16_t largest = 0;
    for (size_t s = 0; s < n; s++) {
        uint16_t count = plain_number16(counts + 2 * s);
        largest = count > largest ? count : largest;
    }
    return largest > 1;
}

/* All around the labels: the front with the new first word, the classes, what stands behind the labels, the new length and the check word. */
static kamordast_built around(const uint8_t *image, size_t length, size_t behind, uint8_t *room, size_t whole, size_t now_behind, size_t first_word) {
    plain_put16(room, (uint32_t)first_word);
    memcpy(room + 2, image + 2, 266);
    memcpy(room + now_behind, image + behind, length - behind);
    plain_put32(room + whole - 8, (uint32_t)whole);
    plain_put16(room + whole - 2, plain_check_word(room, whole - 2));
    return (kamordast_built){0, (uint32_t)whole};
}

kamordast_built plain_forward(const uint8_t *image, size_t length, uint8_t *room, size_t room_length) {
    size_t n = plain_number16(image);
    if (n >= 32768) return (kamordast_built){20, 0};
    size_t behind = 268 + 2 * n, some = labelled(image + 268, n), whole = length + 2 * some;
    if (room_length < whole) return (kamordast_built){16, 0};
    uint8_t *label = room + behind;
    for (size_t s = 0; s < n; s++) {
        uint32_t own = plain_number16(image + 268 + 2 * s);
        plain_put16(room + 268 + 2 * s, own != 0);
        /* What is no label is written over: behind the last one come the records. */
        plain_put16(label, own);
        label += own ? 2 : 0;
    }
    return around(image, length, behind, room, whole, behind + 2 * some, n + 32768);
}

kamordast_built plain_back(const uint8_t *image, size_t length, uint8_t *room, size_t room_length) {
    if (plain_number16(image) < 32768) return (kamordast_built){20, 0};
    size_t n = plain_states(image), behind = 268 + 2 * n, some = labelled(image + 268, n), whole = length - 2 * some;
    if (several(image + 268, n)) return (kamordast_built){21, 0};
    if (room_length < whole) return (kamordast_built){16, 0};
    const uint8_t *label = image + behind;
    for (size_t s = 0; s < n; s++) {
        uint32_t count = plain_number16(image + 268 + 2 * s);
        plain_put16(room + 268 + 2 * s, plain_number16(label) & -count);
        label += 2 * count;
    }
    return around(image, length, behind + 2 * some, room, whole, behind, n);
}
