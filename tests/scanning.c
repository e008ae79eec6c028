/* The scan against the independent reading: random images of both editions, states, payloads and rooms, and the edges of payload and room. Buffers begin or end at
 * a guard page, by turns. */
#include <stdio.h>
#include <string.h>

#include "kamordast.h"
#include "old_loader.h"
#include "reference/reference.h"
#include "rewritten.h"
#include "support.h"
#include "there_and_back.h"

static guarded lent_image, lent_payload, lent_room;
static uint8_t table[LONGEST_TABLE], image[LONGEST_IMAGE], payload[65600], wanted[6 * KAMORDAST_MOST_LABELS * 65600], defaults[1024];
static uint64_t cases, several, parted;
static uint64_t given[20];

static kamordast_scanned compared(size_t length, uint32_t state, size_t payload_length, size_t room_length) {
    uint8_t *in = at_either(&lent_image, length, cases), *bytes = at_either(&lent_payload, payload_length, cases), *room = at_either(&lent_room, room_length, cases);
    memcpy(in, image, length);
    memcpy(bytes, payload, payload_length);
    memset(room, 170, room_length);
    memset(wanted, 170, room_length);
    reference_scanned right = reference_scan(image, length, state, payload, payload_length, wanted, room_length);
    kamordast_scanned answer = kamordast_scan(in, length, state, bytes, payload_length, room, room_length);
    if (answer.refused != right.refused) fail("the number differs", cases);
    if (answer.taken != right.taken) fail("the bytes taken differ", cases);
    if (answer.state != right.state) fail("the state differs", cases);
    if (answer.reports != right.reports) fail("the reports differ", cases);
    if (answer.hops != right.hops) fail("the hops differ", cases);
    if (memcmp(room, wanted, room_length)) fail("the room differs", cases);
    if (memcmp(in, image, length) || memcmp(bytes, payload, payload_length)) fail("a lent byte was changed", cases);
    /* A byte with several reports, and a room that would have held some of those that the next byte has. */
    several += answer.reports > answer.taken;
    parted += answer.taken < payload_length && !answer.refused && answer.reports < room_length / 6;
    given[right.refused]++;
    cases++;
    return answer;
}

static size_t some_image(uint32_t n, uint32_t k) {
    size_t length = either_edition(table, make_table(table, n, k, below(257)));
    make_defaults(defaults, n, below(257));
    reference_built built = reference_image(table, length, defaults, 2 * (size_t)n, image, sizeof image);
    if (built.refused) fail("the reference refused its own table", cases);
    old_loader(image, built.length, 0, cases);
    there_and_back(image, built.length, cases);
    rewritten(image, built.length, cases);
    return built.length;
}

static void random_scans(int rounds) {
    while (rounds--) {
        uint32_t n = 1 + below(below(8) ? 12 : 512), k = 1 + below(below(8) ? 9 : 256);
        size_t length = some_image(n, k);
        for (int runs = 0; runs < 6; runs++) {
            size_t bytes = below(4) ? below(60) : below(3000);
            for (size_t i = 0; i < bytes; i++) payload[i] = (uint8_t)below(256);
            uint32_t state = below(n);
            kamordast_scanned all = compared(length, state, bytes, 6 * (edition_in(image) == 2 ? KAMORDAST_MOST_LABELS : 1) * bytes);
            if (all.taken != bytes) fail("a room for all that could be reported was full", cases);
            size_t exact = 6 * (size_t)all.reports;
            compared(length, state, bytes, exact);
            if (exact) compared(length, state, bytes, exact - 1);
            if (exact) compared(length, state, bytes, 6 * (size_t)below(all.reports));
            compared(length, state, bytes, exact + 1 + below(12));
            compared(length, state, bytes, below(6));
            if (exact) compared(length, state, bytes, below((uint32_t)exact));
            /* A scan in two calls is the scan in one. */
            size_t cut = bytes ? below((uint32_t)bytes + 1) : 0;
            kamordast_scanned first = kamordast_scan(image, length, state, payload, cut, wanted, sizeof wanted);
            kamordast_scanned second = kamordast_scan(image, length, first.state, payload + cut, bytes - cut, wanted, sizeof wanted);
            if (first.taken + second.taken != all.taken || second.state != all.state || first.reports + second.reports != all.reports ||
                first.hops + second.hops != all.hops)
                fail("two calls differ from one", cases);
        }
        compared(length, n, 0, 0);
        compared(length, n + below(100000), below(10), below(20));
        compared(length, 0xffffffff, 3, 6);
        image[below((uint32_t)length)] ^= (uint8_t)(1 + below(255));
        compared(length, below(n + 1), below(10), below(20));
    }
}

static void sizes_of_payloads(void) {
    static const size_t sizes[] = {0, 1, 65535, 65536, 65537, 65600};
    size_t length = some_image(9, 4);
    for (size_t i = 0; i < sizeof sizes / sizeof *sizes; i++) {
        kamordast_scanned r = compared(length, 3, sizes[i], 6 * KAMORDAST_MOST_LABELS * sizes[i]);
        if (r.refused != (sizes[i] > 65536 ? 15u : 0u)) fail("15 above 65,536 bytes only", sizes[i]);
        compared(length, 9, sizes[i], 60);
    }
}

static void edges(void) {
    for (size_t i = 0; i < sizeof payload; i++) payload[i] = (uint8_t)below(256);
    for (int rounds = 0; rounds < 4; rounds++) sizes_of_payloads();
    /* A chain of 511 states with one entry each: the most hops there can be. */
    uint32_t n = 512, k = 2;
    size_t bytes = make_table(table, n, k, 256);
    for (uint32_t s = 0; s < n; s++) {
        set16(table, 262 + 2 * s, 0);
        set16(table, 262 + 2 * n + 4 * s, 511);
        set16(table, 262 + 2 * n + 4 * s + 2, s);
        set16(defaults, 2 * s, s ? s - 1 : 65535);
    }
    memset(table + 6, 0, 256);
    table[6 + 1] = 1;
    reference_built built = reference_image(table, bytes, defaults, 2 * (size_t)n, image, sizeof image);
    memset(payload, 0, sizeof payload);
    kamordast_scanned r = compared(built.length, 511, 65536, 0);
    if (r.hops != 65536u * 511u) fail("the most hops", r.hops);
}

int main(void) {
    lent_image = guard(LONGEST_IMAGE);
    lent_payload = guard(sizeof payload);
    lent_room = guard(sizeof wanted);
    seed(5);
    edges();
    random_scans(2000);
    if (!several || !parted) fail("a byte with several reports, and a room for some of them, are each to be seen", cases);
    printf("scanning: %llu cases agree; more reports than bytes in %llu, room for some reports of a byte in %llu\n  given  ", (unsigned long long)cases, (unsigned long long)several,
           (unsigned long long)parted);
    for (int r = 0; r < 20; r++)
        if (given[r]) printf(" %d:%llu", r, (unsigned long long)given[r]);
    printf("\n");
    return 0;
}
