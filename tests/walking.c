/* The walk against the independent reading, on tables of both editions, and beside it the archive's scan of each image of the table: those that compact builds in every order, and one
 * that write makes of a list at random, and one of such a list with defaults that write does not take. Then a table and an image with one fault each, told apart by the two. Buffers begin or end at a guard page, by turns. */
#include <stdio.h>
#include <string.h>

#include "kamordast.h"
#include "old_loader.h"
#include "reference/reference.h"
#include "rewritten.h"
#include "support.h"
#include "there_and_back.h"

enum { IMAGES = 6, SHORT = 40 };

static guarded lent_table, lent_image, lent_payload, lent_room, lent_other;
static uint8_t table[LONGEST_TABLE], images[IMAGES][LONGEST_IMAGE], payload[65600], wanted[6 * KAMORDAST_MOST_LABELS * 65600], defaults[1024];
static size_t table_length, image_length[IMAGES];
static uint64_t cases, scans, with_hops, parted, given[20];

/* Scans an image of the table and holds the number, bytes taken, state, reports and every byte of the room to the walk's. */
static void beside(int i, const kamordast_scanned *walked, uint32_t state, const uint8_t *lent, size_t bytes, size_t room_length) {
    uint8_t *in = at_either(&lent_image, image_length[i], scans), *room = at_either(&lent_other, room_length, scans);
    memcpy(in, images[i], image_length[i]);
    memset(room, 170, room_length);
    kamordast_scanned scanned = kamordast_scan(in, image_length[i], state, lent, bytes, room, room_length);
    if (scanned.refused != walked->refused) fail("scan and walk: the number differs", cases);
    if (scanned.taken != walked->taken) fail("scan and walk: the bytes taken differ", cases);
    if (scanned.state != walked->state) fail("scan and walk: the state differs", cases);
    if (scanned.reports != walked->reports) fail("scan and walk: the reports differ", cases);
    if (memcmp(room, wanted, room_length)) fail("scan and walk: the room differs", cases);
    with_hops += scanned.hops > 0;
    scans++;
}

/* Walks the table, holds the answer and every byte to the reading, and then so many of its images to the walk. */
static kamordast_scanned compared(int of_images, uint32_t state, size_t bytes, size_t room_length) {
    uint8_t *in = at_either(&lent_table, table_length, cases), *lent = at_either(&lent_payload, bytes, cases), *room = at_either(&lent_room, room_length, cases);
    memcpy(in, table, table_length);
    memcpy(lent, payload, bytes);
    memset(room, 170, room_length);
    memset(wanted, 170, room_length);
    reference_scanned right = reference_walk(table, table_length, state, payload, bytes, wanted, room_length);
    kamordast_scanned answer = kamordast_walk(in, table_length, state, lent, bytes, room, room_length);
    if (answer.refused != right.refused) fail("the number differs", cases);
    if (answer.taken != right.taken) fail("the bytes taken differ", cases);
    if (answer.state != right.state) fail("the state differs", cases);
    if (answer.reports != right.reports) fail("the reports differ", cases);
    if (answer.hops != 0) fail("the walk made hops", cases);
    if (memcmp(room, wanted, room_length)) fail("the room differs", cases);
    if (memcmp(in, table, table_length) || memcmp(lent, payload, bytes)) fail("a lent byte was changed", cases);
    for (int i = 0; i < of_images; i++) beside(i, &answer, state, lent, bytes, room_length);
    /* The room would have held some of the next byte's reports. */
    parted += answer.taken < bytes && !answer.refused && answer.reports < room_length / 6;
    given[right.refused]++;
    cases++;
    return answer;
}

/* A table at random, one in three with states in levels, and its images. */
static void some_table(uint32_t n, uint32_t k) {
    uint32_t bound = below(4) ? below(6) : 65535;
    table_length = either_edition(table, below(3) ? make_table(table, n, k, below(257)) : make_levels(table, n, k, below(257), 1 + below(n), 1 + below(3)));
    make_defaults(defaults, n, below(257));
    image_length[5] = reference_image(table, table_length, defaults, 2 * (size_t)n, images[5], LONGEST_IMAGE).length;
    leave_worthy(defaults, table);
    for (uint32_t i = 0; i < 5; i++) {
        kamordast_built built = i < 4 ? kamordast_compact_in_order(table, table_length, i, (uint16_t)bound, images[i], LONGEST_IMAGE)
                                      : kamordast_write(table, table_length, defaults, 2 * (size_t)n, images[i], LONGEST_IMAGE);
        if (built.refused) fail("a sound table was refused", cases);
        image_length[i] = built.length;
    }
    for (uint32_t i = 0; i < IMAGES; i++) {
        old_loader(images[i], image_length[i], 0, cases);
        there_and_back(images[i], image_length[i], cases);
        rewritten(images[i], image_length[i], cases);
    }
}

static void some_payload(size_t bytes) {
    for (size_t i = 0; i < bytes; i++) payload[i] = (uint8_t)below(256);
}

/* One payload from one state, in rooms for all that could be reported, for just the reports, one byte short, shorter, and none. */
static void with_rooms(uint32_t state, size_t bytes) {
    size_t exact = 6 * (size_t)compared(IMAGES, state, bytes, 6 * (edition_in(table) == 2 ? KAMORDAST_MOST_LABELS : 1) * bytes).reports;
    compared(IMAGES, state, bytes, exact);
    compared(IMAGES, state, bytes, 0);
    if (exact == 0) return;
    compared(IMAGES, state, bytes, 6 * (size_t)below((uint32_t)exact / 6));
    compared(IMAGES, state, bytes, exact - 1);
    compared(IMAGES, state, bytes, below((uint32_t)exact));
}

/* The longest payload that is taken, the shortest that is not, and that the state is tested first. */
static void long_payloads(uint32_t n) {
    some_payload(65537);
    with_rooms(below(n), 65536);
    if (compared(IMAGES, below(n), 65537, 6 * 65537).refused != 15) fail("65,537 bytes were taken", cases);
    if (compared(IMAGES, n, 65537, 60).refused != 14) fail("15 came before 14", cases);
}

/* The table cut or altered where its grounds look. */
static void damaged(uint32_t n) {
    const uint32_t ends[] = {2, 4, 6, 262, (uint32_t)rows_in(table)};
    uint32_t end = ends[below(5)];
    if (below(4) == 0) table_length -= 1 + below((uint32_t)table_length);
    else if (below(2)) table[below(end)] = (uint8_t)below(256);
    else set16(table, 262 + 2 * below((uint32_t)(table_length - 262) / 2), n + below(3));
    compared(0, below(n + 1), below(10), below(20));
}

static void side_by_side(int tables) {
    for (int number = 0; number < tables; number++) {
        uint32_t n = number ? 1 + below(below(80) ? 14 : 512) : 512, k = number ? 1 + below(below(80) ? 9 : 256) : 256;
        some_table(n, k);
        for (int runs = 0; runs < 3; runs++) {
            size_t bytes = below(4) ? below(40) : below(600);
            some_payload(bytes);
            with_rooms(below(n), bytes);
        }
        compared(IMAGES, n, 0, 0);
        compared(IMAGES, n + below(100000), below(10), below(20));
        compared(IMAGES, 0xffffffff, 3, 6);
        if (number % 20 == 0) long_payloads(n);
        damaged(n);
    }
}

/* What a walk or a scan of the first bytes of the payload shows: all but the hops. */
typedef struct {
    uint32_t numbers[4];
    uint8_t room[6 * KAMORDAST_MOST_LABELS * SHORT];
} shown;

static shown show(kamordast_scanned (*run)(const uint8_t *, size_t, uint32_t, const uint8_t *, size_t, uint8_t *, size_t), const uint8_t *in, size_t length) {
    shown s = {{0}, {0}};
    kamordast_scanned r = run(in, length, number16(table, 4), payload, SHORT, s.room, sizeof s.room);
    s.numbers[0] = r.refused, s.numbers[1] = r.taken, s.numbers[2] = r.state, s.numbers[3] = r.reports;
    return s;
}

static int same(const shown *a, const shown *b) { return !memcmp(a, b, sizeof *a); }

/* The operator sheet's recipe: where the fault is, by what the table's walk and the image's scan show and what was right. */
enum place { NOWHERE, IN_THE_IMAGE, IN_THE_TABLE, IN_THIS_COPY_OF_THE_TABLE, IN_BOTH };

static enum place fault(const shown *right, const uint8_t *t, const uint8_t *image, size_t length) {
    shown walked = show(kamordast_walk, t, table_length), scanned = show(kamordast_scan, image, length);
    if (same(&walked, right)) return same(&scanned, right) ? NOWHERE : IN_THE_IMAGE;
    if (same(&scanned, &walked)) return IN_THE_TABLE;
    return same(&scanned, right) ? IN_THIS_COPY_OF_THE_TABLE : IN_BOTH;
}

/* A copy of the table with one next state altered so that the payload shows it: 1, or 0 where none of 200 did. */
static int alter_table(uint8_t *copy, const shown *right, uint32_t n, uint32_t k) {
    for (int tries = 0; tries < 200; tries++) {
        memcpy(copy, table, table_length);
        set16(copy, rows_in(table) + 2 * below(n * k), below(n));
        shown seen = show(kamordast_walk, copy, table_length);
        if (!same(&seen, right)) return 1;
    }
    return 0;
}

/* A copy of an image with one entry altered and its check word mended, so that it is accepted and the payload shows it: 1, or 0 where none of 200 was. Before its
 * check word is mended each is refused, and the fault is in the image. */
static int alter_image(uint8_t *copy, const shown *right, const uint8_t *image, size_t length, uint32_t n) {
    for (int tries = 0; tries < 200; tries++) {
        size_t target = length - 12 - 4 * (size_t)(1 + below(number32(image, 8))) + 2;
        memcpy(copy, image, length);
        set16(copy, target, (number16(copy, target) + 1 + below(n - 1)) % n);
        if (fault(right, table, copy, length) != IN_THE_IMAGE) fail("a refused image", cases);
        mend_check_word(copy, length);
        shown seen = show(kamordast_scan, copy, length);
        if (!seen.numbers[0] && !same(&seen, right)) return 1;
    }
    return 0;
}

/* Sound files; an image with a fault; a table with a fault and an image built of it, that image altered, or an image of the table before; a table that is refused. */
static void told_apart(int tables) {
    static uint8_t other[LONGEST_TABLE], altered[LONGEST_IMAGE];
    int in_tables = 0, in_images = 0;
    for (int number = 0; number < tables; number++) {
        uint32_t n = 2 + below(12), k = 1 + below(9), i = below(IMAGES);
        some_table(n, k);
        some_payload(SHORT);
        shown right = show(kamordast_walk, table, table_length);
        if (right.numbers[0] || fault(&right, table, images[i], image_length[i]) != NOWHERE) fail("a fault in sound files", cases);
        if (alter_image(altered, &right, images[i], image_length[i], n)) {
            if (fault(&right, table, altered, image_length[i]) != IN_THE_IMAGE) fail("the fault is in the image", cases);
            in_images++;
        }
        if (alter_table(other, &right, n, k)) {
            kamordast_built built = kamordast_compact_in_order(other, table_length, below(4), (uint16_t)below(5), altered, LONGEST_IMAGE);
            if (built.refused || fault(&right, other, altered, built.length) != IN_THE_TABLE) fail("the fault is in the table", cases);
            old_loader(altered, built.length, 0, cases);
            there_and_back(altered, built.length, cases);
            rewritten(altered, built.length, cases);
            if (fault(&right, other, images[i], image_length[i]) != IN_THIS_COPY_OF_THE_TABLE) fail("the image is of the table before", cases);
            altered[built.length - 1] ^= 1;
            if (fault(&right, other, altered, built.length) != IN_BOTH) fail("a fault in both", cases);
            in_tables++;
        }
        set16(other, rows_in(table) + 2 * below(n * k), n);
        if (fault(&right, other, images[i], image_length[i]) != IN_THIS_COPY_OF_THE_TABLE) fail("a refused table", cases);
    }
    if (in_tables < tables / 2 || in_images < tables / 2) fail("too few faults were shown", cases);
    printf("  told apart: %d faults of a table and %d of an accepted image\n", in_tables, in_images);
}

int main(void) {
    static const int grounds[] = {0, 1, 2, 3, 6, 7, 10, 14, 15, 19};
    lent_table = guard(LONGEST_TABLE);
    lent_image = guard(LONGEST_IMAGE);
    lent_payload = guard(sizeof payload);
    lent_room = guard(sizeof wanted);
    lent_other = guard(sizeof wanted);
    seed(12);
    side_by_side(2000);
    printf("walking: %llu cases agree, and %llu scans beside them, %llu with hops\n  given  ", (unsigned long long)cases, (unsigned long long)scans, (unsigned long long)with_hops);
    for (size_t i = 0; i < sizeof grounds / sizeof *grounds; i++) {
        if (!given[grounds[i]]) fail("a number was never given", (uint64_t)grounds[i]);
        printf(" %d:%llu", grounds[i], (unsigned long long)given[grounds[i]]);
    }
    printf("\n");
    if (!with_hops || !parted) fail("a hop, and a room for some reports of a byte, are each to be seen", scans);
    printf("  room for some reports of a byte in %llu walks\n", (unsigned long long)parted);
    told_apart(500);
    return 0;
}
