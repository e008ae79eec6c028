/* Several rules on one state, by scan and walk: every report of a byte in rising order or none of them, in rooms of every length; the most reports that there can be; a list of one label
 * in edition 2 beside the label in edition 1. Each answer is held to the independent reading, every byte of the room too. */
#include <stdio.h>
#include <string.h>

#include "kamordast.h"
#include "old_loader.h"
#include "reference/reference.h"
#include "rewritten.h"
#include "there_and_back.h"

enum { LONGEST_PAYLOAD = 65536, LONGEST_ROOM = 6 * KAMORDAST_MOST_LABELS * LONGEST_PAYLOAD };

static guarded lent_room;
static uint8_t table[LONGEST_TABLE], image[LONGEST_IMAGE], defaults[1024], payload[LONGEST_PAYLOAD], wanted[LONGEST_ROOM + 64], first[LONGEST_ROOM];
static size_t table_length, image_length;
static uint64_t cases, parted;

/* Scan and walk of the payload's first bytes with a room of 170s, held to the reading and to each other; answers the scan's numbers and leaves its room in `wanted`. */
static kamordast_scanned both(uint32_t state, size_t bytes, size_t room_length) {
    for (int walk = 1; walk >= 0; walk--) {
        uint8_t *room = at_either(&lent_room, room_length, cases);
        memset(room, 170, room_length);
        memset(wanted, 170, room_length);
        kamordast_scanned answer = walk ? kamordast_walk(table, table_length, state, payload, bytes, room, room_length)
                                        : kamordast_scan(image, image_length, state, payload, bytes, room, room_length);
        reference_scanned right = walk ? reference_walk(table, table_length, state, payload, bytes, wanted, room_length)
                                       : reference_scan(image, image_length, state, payload, bytes, wanted, room_length);
        if (answer.refused != right.refused || answer.taken != right.taken || answer.state != right.state) fail("the number, the bytes taken or the state", cases);
        if (answer.reports != right.reports || answer.hops != right.hops) fail("the reports or the hops", cases);
        if (memcmp(room, wanted, room_length)) fail("the room differs", cases);
        cases++;
        if (walk) continue;
        parted += answer.taken < bytes && answer.reports < room_length / 6;
        return answer;
    }
    return (kamordast_scanned){0, 0, 0, 0, 0};
}

static void expect(kamordast_scanned r, uint32_t taken, uint32_t state, uint32_t reports, uint32_t hops, const char *sentence) {
    if (r.refused || r.taken != taken || r.state != state || r.reports != reports || r.hops != hops) fail(sentence, cases);
}

/* The image of the table with these defaults. */
static void write_image(void) {
    reference_built built = reference_image(table, table_length, defaults, 2 * (size_t)states_in(table), image, sizeof image);
    if (built.refused) fail("the reference refused its own table", built.refused);
    image_length = built.length;
    old_loader(image, image_length, 0, cases);
    there_and_back(image, image_length, cases);
    rewritten(image, image_length, cases);
}

/* T in edition 2, its states 1, 2 and 3 falling to 0. State 2 has 7, 8 and 300, state 3 has 9. */
static void make_t(void) {
    static const uint16_t counts[] = {0, 0, 3, 1}, labels[] = {7, 8, 300, 9}, rows[] = {0, 1, 0, 0, 1, 2, 0, 1, 3, 0, 1, 0};
    set16(table, 0, 32768 + 4);
    set16(table, 2, 3);
    set16(table, 4, 0);
    memset(table + 6, 0, 256);
    table[6 + 'a'] = 1;
    table[6 + 'b'] = 2;
    for (size_t s = 0; s < 4; s++) set16(table, 262 + 2 * s, counts[s]);
    for (size_t i = 0; i < 4; i++) set16(table, 270 + 2 * i, labels[i]);
    for (size_t i = 0; i < 12; i++) set16(table, 278 + 2 * i, rows[i]);
    table_length = 302;
    memset(defaults, 0, 8);
    set16(defaults, 0, 65535);
    write_image();
}

/* From 0 "aabbb" goes over 1 1 2 3 0. The three reports of its third byte come whole or not at all, whatever the room; the fourth byte has one. */
static void t_in_rooms(void) {
    static const uint8_t reports[] = {2, 0, 0, 0, 7, 0, 2, 0, 0, 0, 8, 0, 2, 0, 0, 0, 44, 1, 3, 0, 0, 0, 9, 0};
    make_t();
    memcpy(payload, "aabbb", 5);
    for (size_t room = 0; room <= 60; room++) {
        kamordast_scanned r = both(0, 5, room);
        uint32_t fit = room < 18 ? 0 : room < 24 ? 3 : 4;
        if (fit == 0) expect(r, 2, 1, 0, 1, "room for none of the third byte's reports, or for some");
        if (fit == 3) expect(r, 3, 2, 3, 1, "room for the third byte's reports");
        if (fit == 4) expect(r, 5, 0, 4, 2, "room for all");
        if (memcmp(wanted, reports, 6 * fit)) fail("the reports of T", room);
        for (size_t i = 6 * fit; i < room; i++)
            if (wanted[i] != 170) fail("the room behind the reports", room);
    }
    /* The state that the scan begins in reports nothing, and a report of 0 bytes is none. */
    expect(both(2, 0, 60), 0, 2, 0, 0, "no byte, from a state with labels");
    payload[0] = 'a';
    expect(both(2, 1, 60), 1, 1, 0, 1, "from a state with labels to one without");
    /* State 4 is none, nor is any number that the first word holds. */
    static const uint32_t none[] = {4, 5, 32768, 32768 + 3, 32768 + 4, 65535, 0xffffffff};
    for (size_t i = 0; i < sizeof none / sizeof *none; i++)
        if (both(none[i], 5, 60).refused != 14) fail("14 from the true n on", none[i]);
    if (both(3, 5, 60).refused) fail("the last state", 3);
}

/* One state with 16 labels, and the longest payload: sixteen reports a byte, in rooms for all, for some of the last byte's, and for the first byte's and some of the second's. */
static void most_reports(void) {
    table_length = make_table(table, 1, 1, 256);
    memmove(table + 264 + 32, table + 264, 2);
    set16(table, 0, 32768 + 1);
    set16(table, 262, 16);
    for (uint32_t i = 0; i < 16; i++) set16(table, 264 + 2 * i, i < 15 ? 3 * i + 1 : 65535);
    table_length += 32;
    set16(defaults, 0, 65535);
    write_image();
    memset(payload, 7, sizeof payload);
    expect(both(0, LONGEST_PAYLOAD, LONGEST_ROOM), LONGEST_PAYLOAD, 0, 16 * LONGEST_PAYLOAD, 0, "sixteen reports for each of 65,536 bytes");
    for (uint32_t i = 0; i < 16 * LONGEST_PAYLOAD; i++)
        if (number32(wanted, 6 * (size_t)i) != i / 16 || number16(wanted, 6 * (size_t)i + 4) != (i % 16 < 15 ? 3 * (i % 16) + 1 : 65535)) fail("the report in its place", i);
    for (size_t less = 1; less <= 96; less++) expect(both(0, LONGEST_PAYLOAD, LONGEST_ROOM - less), LONGEST_PAYLOAD - 1, 0, 16 * (LONGEST_PAYLOAD - 1), 0, "one byte's reports do not fit");
    for (size_t room = 0; room < 300; room++) expect(both(0, 5, room), room / 96 < 5 ? (uint32_t)room / 96 : 5, 0, 16 * ((uint32_t)room / 96), 0, "whole bytes only");
}

/* Tables whose states have many labels, with every room up to what is reported. */
static void every_room(int rounds) {
    while (rounds--) {
        uint32_t n = 1 + below(8), k = 1 + below(5);
        size_t bytes = 1 + below(12);
        table_length = make_second(table, make_table(table, n, k, below(257)), 16);
        make_defaults(defaults, n, below(257));
        write_image();
        for (size_t i = 0; i < bytes; i++) payload[i] = (uint8_t)below(256);
        uint32_t state = below(n);
        size_t all = 6 * (size_t)both(state, bytes, 6 * 16 * bytes).reports;
        for (size_t room = 0; room <= all + 1; room++) both(state, bytes, room);
    }
}

/* A table of edition 1, and the same in edition 2 with a list of one label in place of each that is not 0: the same answers and the same reports. */
static void lists_of_one(int rounds) {
    while (rounds--) {
        uint32_t n = 1 + below(20), k = 1 + below(8), state = below(n);
        size_t bytes = below(80), rows = 262 + 2 * (size_t)n;
        table_length = make_table(table, n, k, below(257));
        make_defaults(defaults, n, below(257));
        write_image();
        for (size_t i = 0; i < bytes; i++) payload[i] = (uint8_t)below(256);
        size_t room = below(3) ? 6 * bytes : below(6 * (uint32_t)bytes + 1);
        kamordast_scanned before = both(state, bytes, room);
        memcpy(first, wanted, room);
        uint16_t labels[20];
        uint32_t count = 0;
        for (uint32_t s = 0; s < n; s++) {
            uint32_t label = number16(table, 262 + 2 * s);
            if (label) labels[count++] = (uint16_t)label;
            set16(table, 262 + 2 * s, label > 0);
        }
        memmove(table + rows + 2 * count, table + rows, table_length - rows);
        for (uint32_t i = 0; i < count; i++) set16(table, rows + 2 * i, labels[i]);
        set16(table, 0, 32768 + n);
        table_length += 2 * count;
        write_image();
        kamordast_scanned now = both(state, bytes, room);
        if (memcmp(&before, &now, sizeof now) || memcmp(first, wanted, room)) fail("a list of one label is scanned otherwise than the label", cases);
    }
}

int main(void) {
    lent_room = guard(LONGEST_ROOM);
    seed(152);
    t_in_rooms();
    most_reports();
    every_room(400);
    lists_of_one(2000);
    if (!parted) fail("no room held some reports of a byte", cases);
    printf("several rules on one state: %llu cases agree, %llu of them with room for some reports of a byte\n", (unsigned long long)cases, (unsigned long long)parted);
    return 0;
}
