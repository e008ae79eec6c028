/* Word lists run through strings beside the reading, and what they report beside the search. */
#include "listed.h"

#include <string.h>

#include "kamordast.h"
#include "reference/reference.h"
#include "there_and_back.h"

enum { PAYLOAD = 400 };

uint8_t list[70 * (4 + 40) + 2];
size_t length;
uint64_t tables, longest_list, most_states, runs, matches, several;

static uint8_t payload[PAYLOAD], by_search[6 * 64 * PAYLOAD], reported[6 * KAMORDAST_MOST_LABELS * PAYLOAD];

void begin_list(void) {
    set16(list, 0, 0);
    length = 2;
}

void add(uint32_t label, const void *bytes, size_t string_length) {
    set16(list, 0, number16(list, 0) + 1);
    set16(list, length, label);
    set16(list, length + 2, (uint32_t)string_length);
    memcpy(list + length + 4, bytes, string_length);
    length += 4 + string_length;
}

size_t place_of(uint32_t i) {
    size_t at = 2;
    for (; i; i--) at += 4 + number16(list, at + 2);
    return at;
}

uint32_t some_label(void) {
    for (;;) {
        uint32_t label = below(4) ? 1 + below(100) : 65535 - below(300), i = 0, count = number16(list, 0);
        while (i < count && number16(list, place_of(i)) != label) i++;
        if (i == count) return label;
    }
}

void answers(uint32_t number, const char *sentence) {
    uint64_t so_far = given[number];
    compared(STRINGS, list, length, 0, 0, LONGEST_TABLE);
    if (given[number] != so_far + 1) fail(sentence, cases);
    if (!number) return;
    compared(STRINGS, list, length, 0, 0, 0);
    compared(STRINGS, list, length, 0, 0, below(700));
    if (given[number] != so_far + 3) fail("the room decides before the list", cases);
}

/* A payload of the strings' pieces: whole ones, beginnings, endings and single bytes, some of them in no string. */
static size_t make_payload(void) {
    size_t bytes = 0, most = 1 + below(PAYLOAD);
    while (bytes < most) {
        size_t at = place_of(below(number16(list, 0))), string_length = number16(list, at + 2);
        size_t from = below(3) ? 0 : below((uint32_t)string_length), to = below(3) ? string_length : from + below((uint32_t)(string_length - from) + 1);
        for (; from < to && bytes < most; from++) payload[bytes++] = list[at + 4 + from];
        if (below(6) == 0 && bytes < most) payload[bytes++] = (uint8_t)below(256);
    }
    return bytes;
}

/* A run took the payload and reported what the search found. */
static void same_matches(kamordast_scanned r, size_t bytes, size_t found, uint32_t state) {
    if (r.refused || r.taken != bytes) fail("the payload is not taken", cases);
    if (r.reports != found || memcmp(reported, by_search, 6 * found)) fail("the reports are not what the search finds", cases);
    if (r.state != state) fail("the state does not stand for the longest ending that begins a string", cases);
    runs++;
}

/* Payloads through the table and its images in the four orders, all against the search. */
static void searched(const uint8_t *made, size_t made_length, int payloads) {
    static uint8_t built[4][LONGEST_IMAGE];
    size_t image_length[4];
    for (uint32_t o = 0; o < 4; o++) {
        kamordast_built b = kamordast_compact_in_order(made, made_length, o, (uint16_t)below(5), built[o], LONGEST_IMAGE);
        if (b.refused) fail("the table is not compacted", b.refused);
        image_length[o] = b.length;
        there_and_back(built[o], b.length, cases);
    }
    while (payloads--) {
        size_t bytes = make_payload(), found = reference_search(list, length, payload, bytes, by_search);
        uint32_t state = reference_stands_for(list, length, payload, bytes);
        same_matches(kamordast_walk(made, made_length, 0, payload, bytes, reported, sizeof reported), bytes, found, state);
        for (uint32_t o = 0; o < 4; o++) same_matches(kamordast_scan(built[o], image_length[o], number16(built[o], 4), payload, bytes, reported, sizeof reported), bytes, found, state);
        matches += found;
        for (size_t i = 1; i < found; i++) several += number32(by_search, 6 * i) == number32(by_search, 6 * i - 6);
    }
}

void taken(int payloads) {
    static uint8_t made[LONGEST_TABLE];
    size_t made_length = with_rooms(STRINGS, list, length, 0, 0);
    if (!made_length) fail("a list as it should be is refused", cases);
    compared(STRINGS, list, length, 0, 0, LONGEST_TABLE);
    memcpy(made, wanted, made_length);
    if (number16(made, 4) || number16(made, 262)) fail("the start state is not the empty string", cases);
    searched(made, made_length, payloads);
    tables++;
    if (length > longest_list) longest_list = length;
    if (states_in(made) > most_states) most_states = states_in(made);
}
