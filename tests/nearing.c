/* Scans of images of both editions in order 3: a whole payload costs no more hops than it has bytes. From every state of level l the hops are held to bytes taken plus l, wherever
 * the scan stops, on random payloads and on those that cost the most of all of their length; every answer is held to the independent reading too. A first byte from
 * the start costs nothing, so where a byte was taken the bound less one is never passed, and that is met. */
#include <stdio.h>
#include <string.h>

#include "costliest.h"
#include "kamordast.h"
#include "old_loader.h"
#include "reference/reference.h"
#include "rewritten.h"
#include "support.h"
#include "there_and_back.h"

static uint8_t table[LONGEST_TABLE], image[LONGEST_IMAGE], payload[65536], room[6 * KAMORDAST_MOST_LABELS * 65536], wanted[6 * KAMORDAST_MOST_LABELS * 65536];
static int level[512];
static size_t length;
static uint64_t cases, met, from_start, unreached;

/* The image of the table in order 3, by the archive, and the levels by the reading. */
static void use(size_t table_length) {
    kamordast_built built = kamordast_compact_in_order(table, table_length, 3, (uint16_t)below(65536), image, sizeof image);
    if (built.refused) fail("a table as it should be", built.refused);
    length = built.length;
    old_loader(image, length, 0, cases);
    there_and_back(image, length, cases);
    rewritten(image, length, cases);
    reference_levels(table, level);
}

/* A scan from a state, held to the reading and to the bound. */
static kamordast_scanned held(uint32_t state, size_t bytes, size_t room_length) {
    memset(room, 170, room_length);
    memset(wanted, 170, room_length);
    kamordast_scanned a = kamordast_scan(image, length, state, payload, bytes, room, room_length);
    reference_scanned r = reference_scan(image, length, state, payload, bytes, wanted, room_length);
    if (a.refused || r.refused || a.taken != r.taken || a.state != r.state || a.reports != r.reports || a.hops != r.hops) fail("the scan's numbers", cases);
    if (memcmp(room, wanted, room_length)) fail("the room differs", cases);
    cases++;
    if (level[state] < 0) {
        unreached++;
        return a;
    }
    uint32_t bound = a.taken + (uint32_t)level[state];
    if (a.hops > bound) fail("more hops than bytes taken and the level", cases);
    if (a.taken && a.hops == bound) fail("as many hops as bytes taken and the level", cases);
    if (a.taken && a.hops + 1 == bound) {
        met++;
        from_start += level[state] == 0;
    }
    return a;
}

/* A payload with room for all reports, for all but one, for some and for none. */
static void in_rooms(uint32_t state, size_t bytes) {
    kamordast_scanned all = held(state, bytes, 6 * KAMORDAST_MOST_LABELS * bytes);
    if (!all.reports) return;
    held(state, bytes, 6 * (size_t)all.reports - 1);
    held(state, bytes, below(6 * all.reports));
    held(state, bytes, 6 * (size_t)below(all.reports));
    held(state, bytes, 0);
}

/* From every state, or on large tables from some: a payload at random, and the costliest. */
static void from_states(size_t bytes, uint32_t step) {
    costliest *found = find_costliest(image, length, bytes);
    for (uint32_t s = below(step); s < states_in(image); s += step) {
        for (size_t i = 0; i < bytes; i++) payload[i] = (uint8_t)below(256);
        in_rooms(s, bytes);
        uint32_t most = costliest_from(found, s, payload);
        if (held(s, bytes, 6 * KAMORDAST_MOST_LABELS * bytes).hops != most) fail("the costliest payload costs another number of hops", most);
        in_rooms(s, bytes);
    }
    forget_costliest(found);
}

/* Small tables at random and in levels, and large ones. */
static void random_tables(int rounds) {
    while (rounds--) {
        uint32_t n = rounds % 50 ? 1 + below(20) : 100 + below(413), k = rounds % 50 ? 1 + below(8) : 1 + below(256), alike = 100 + below(157);
        use(either_edition(table, rounds % 3 ? make_levels(table, n, k, alike, below(3) ? n : 1 + below(n), below(2) ? 1 : 1 + below(6)) : make_table(table, n, k, alike)));
        from_states(n > 20 ? 200 : below(60), n > 20 ? 80 : 1);
    }
}

/* T: in order 3 its other states fall to the start, which stores the way of 'a'. So each 'a' but the first costs a hop. */
static void t_meets(void) {
    static const uint16_t labels[] = {0, 0, 7, 9}, rows[] = {0, 1, 0, 0, 1, 2, 0, 1, 3, 0, 1, 0};
    set16(table, 0, 4);
    set16(table, 2, 3);
    set16(table, 4, 0);
    memset(table + 6, 0, 256);
    table[6 + 'a'] = 1;
    table[6 + 'b'] = 2;
    for (size_t s = 0; s < 4; s++) set16(table, 262 + 2 * s, labels[s]);
    for (size_t i = 0; i < 12; i++) set16(table, 270 + 2 * i, rows[i]);
    use(294);
    memset(payload, 'a', sizeof payload);
    for (size_t bytes = 0; bytes <= sizeof payload; bytes = bytes < 4 ? bytes + 1 : 16 * bytes)
        if (held(0, bytes, sizeof room).hops != (bytes ? bytes - 1 : 0)) fail("T and a payload of a", bytes);
}

/* The stairs: up to the top by 511 bytes for nothing, down again by one byte of 511 hops to state 1, and so on. One byte may cost 511 hops; the whole costs a hop
 * less than it has bytes. */
static void stairs_meet(int edition) {
    size_t table_length = make_stairs(table);
    use(edition == 2 ? make_second(table, table_length, 0) : table_length);
    for (size_t i = 0; i < sizeof payload; i++) payload[i] = i && i % 511 == 0 ? 11 : 0;
    for (size_t bytes = 512; bytes <= sizeof payload; bytes += 127 * 511)
        if (held(0, bytes, 0).hops != bytes - 1) fail("the stairs, up and down", bytes);
    from_states(600, 73);
    payload[0] = 11;
    for (uint32_t s = 0; s < 512; s += 73)
        if (held(s, 1, 0).hops != s) fail("the stairs, one byte", s);
}

int main(void) {
    seed(17);
    t_meets();
    stairs_meet(1);
    stairs_meet(2);
    random_tables(400);
    if (!met || !from_start || !unreached) fail("a kind of scan did not occur", cases);
    printf("nearing: %llu scans in order 3 within bytes taken and level, %llu of them one below it, %llu of these from the start; %llu from states that are not reached\n",
           (unsigned long long)cases, (unsigned long long)met, (unsigned long long)from_start, (unsigned long long)unreached);
    return 0;
}
