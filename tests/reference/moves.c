/* The moves of request C-16, from its text: the image is taken apart, its labels put down as the other edition has them, and all else as it stands but for what depends on that. */
#include <stdlib.h>
#include <string.h>

#include "editions.h"
#include "reference.h"

static uint8_t *put16(uint8_t *p, uint32_t x) {
    p[0] = x & 255;
    p[1] = x >> 8 & 255;
    return p + 2;
}

/* The image in the other edition, into a new block of up to 2 bytes more for each state; answers its length. */
static size_t moved(const uint8_t *b, size_t length, const label_lists *lists, uint8_t *result) {
    uint32_t n = states_of(b);
    int to_second = !is_second(b);
    uint8_t *p = put16(result, to_second ? SECOND_EDITION + n : n);
    /* k, the start state, depth, m and the classes. */
    memcpy(p, b + 2, 266);
    p += 266;
    for (uint32_t s = 0; s < n; s++) p = put16(p, to_second ? lists->count[s] : lists->count[s] ? lists->label[s][0] : 0);
    for (uint32_t s = 0; to_second && s < n; s++)
        if (lists->count[s]) p = put16(p, lists->label[s][0]);
    /* The records, the entries and the distance back to the first of them. */
    size_t from = 268 + 2 * (size_t)n + 2 * (size_t)labels_behind(b, 268), same = length - 8 - from;
    memcpy(p, b + from, same);
    p += same;
    uint32_t whole = (uint32_t)(p + 8 - result);
    p = put16(p, whole & 65535);
    p = put16(p, whole >> 16);
    p = put16(p, word_at(b, length - 4)); /* worst */
    put16(p, reference_check_word(result, whole - 2));
    return whole;
}

/* The grounds of the direction, in their order: the image's, 20, going back 21, 16. */
static reference_built move(const uint8_t *b, size_t length, int to_second, uint8_t *room, size_t room_length) {
    reference_built answer = {reference_judge_image(b, length), 0};
    if (answer.refused) return answer;
    if (is_second(b) == to_second) {
        answer.refused = 20;
        return answer;
    }
    label_lists lists;
    read_lists(b, 268, &lists);
    for (uint32_t s = 0; s < states_of(b); s++)
        if (lists.count[s] > 1) answer.refused = 21;
    if (answer.refused) return answer;
    uint8_t *result = malloc(length + 2 * (size_t)states_of(b));
    size_t whole = moved(b, length, &lists, result);
    if (whole > room_length) {
        answer.refused = 16;
    } else {
        memcpy(room, result, whole);
        answer.length = (uint32_t)whole;
    }
    free(result);
    return answer;
}

reference_built reference_forward(const uint8_t *b, size_t length, uint8_t *room, size_t room_length) { return move(b, length, 1, room, room_length); }
reference_built reference_back(const uint8_t *b, size_t length, uint8_t *room, size_t room_length) { return move(b, length, 0, room, room_length); }
