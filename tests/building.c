/* Write, expand and compact, in every order, against the independent reading: random tables of both editions and lists, valid, with defaults that are not worth their hops, and damaged; rooms exact, one short, longer
 * and empty. */
#include <string.h>

#include "built.h"
#include "kamordast.h"
#include "reference/reference.h"
#include "support.h"

static uint32_t some_size(uint32_t most) {
    switch (below(8)) {
    case 0: return 1;
    case 1: return 1 + below(most);
    default: return 1 + below(most < 12 ? most : 12);
    }
}

/* Write, the way back by expand, and the way forth again. */
static void round_trips(int rounds) {
    while (rounds--) {
        uint32_t n = rounds > 1 ? some_size(512) : 512, k = rounds > 1 ? some_size(256) : 256;
        size_t length = make_table(table, n, k, below(257));
        /* The last two tables are the largest, one of each edition. */
        if (rounds > 1) length = either_edition(table, length);
        if (rounds == 0) length = make_second(table, length, 16);
        make_defaults(defaults, n, below(257));
        reference_built written = reference_image(table, length, defaults, 2 * (size_t)n, image, sizeof image);
        if (written.refused) fail("a table as it should be", cases);
        /* A default that shares fewer than two classes is 25, in every room; without those the list is taken. */
        uint64_t retired = given[25];
        size_t result = with_rooms(WRITE, table, length, 2 * (size_t)n, 0);
        uint32_t gone = leave_worthy(defaults, table);
        if ((result == 0) != (gone > 0) || given[25] != retired + (gone ? 2 : 0)) fail("25 just where a default shares fewer than two classes", cases);
        if (gone && !with_rooms(WRITE, table, length, 2 * (size_t)n, 0)) fail("a list without such defaults", cases);
        with_rooms(EXPAND, image, written.length, 0, 0);
        kamordast_built back = kamordast_expand(image, written.length, wanted, sizeof wanted);
        if (back.refused || back.length != length || memcmp(wanted, table, length)) fail("expand does not give back the table", cases);
        /* Damage in the list: values, a circle, the length; each comes before 25. */
        size_t list_length = 2 * (size_t)n;
        if (below(2)) make_defaults(defaults, n, 256);
        switch (below(4)) {
        case 0: set16(defaults, 2 * below(n), below(3) ? n + below(3) : 65534); break;
        case 1: {
            uint32_t s = below(n);
            set16(defaults, 2 * s, below(2) ? s : below(n));
            break;
        }
        case 2: list_length = below(2) ? list_length + 1 + below(3) : below((uint32_t)list_length); break;
        default:
            for (uint32_t s = 0; s < n; s++) set16(defaults, 2 * s, below(n));
        }
        compared(WRITE, table, length, list_length, 0, below(2) ? LONGEST_IMAGE : 0);
        /* Damage in the table and in the image. */
        table[below(3) ? below((uint32_t)length) : 262 + below(2 * n)] = (uint8_t)below(256);
        compared(WRITE, table, below(4) ? length : below((uint32_t)length), 2 * (size_t)n, 0, below(2) ? LONGEST_IMAGE : 0);
        image[below(3) ? below(written.length) : 268 + below(2 * n)] = (uint8_t)below(256);
        if (below(2)) mend_check_word(image, written.length);
        compared(EXPAND, image, below(4) ? written.length : below(written.length), 0, 0, below(2) ? LONGEST_TABLE : 0);
    }
}

/* The paper's own tables. */
static void papers_cases(void) {
    static const uint16_t t[] = {0, 1, 0, 0, 1, 2, 0, 1, 3, 0, 1, 0}, three[] = {0, 0, 0, 1, 1, 1};
    rows_of(4, 3, t);
    set16(table, 266, 7);
    set16(table, 268, 9);
    static const uint32_t lengths[] = {352, 332, 324, 324}, entries[] = {12, 7, 5, 5}, deep[] = {0, 1, 1, 1};
    for (uint32_t bound = 0; bound < 4; bound++) {
        if (compared(COMPACT, table, 294, 0, bound, lengths[bound]) != lengths[bound]) fail("T's length", bound);
        expect_image(lengths[bound], entries[bound], deep[bound], deep[bound], "T's numbers");
    }
    order = 3;
    for (uint32_t bound = 0; bound < 65536; bound += bound < 5 ? 1 : 13106) {
        if (compared(COMPACT, table, 294, 0, bound, 324) != 324) fail("T's length in order 3", bound);
        expect_image(324, 5, 1, 1, "T's numbers in order 3");
        expect_defaults((const uint16_t[]){65535, 0, 0, 0}, "T's defaults in order 3");
    }
    order = 0;
    for (uint32_t s = 0; s < 4; s++) set16(defaults, 2 * s, s < 3 ? 3 : 65535);
    if (compared(WRITE, table, 294, 8, 0, 324) != 324) fail("T written with 0, 1 and 2 to 3", 0);
    expect_image(324, 5, 1, 1, "T written with 0, 1 and 2 to 3");
    set16(defaults, 2, 1);
    compared(WRITE, table, 294, 8, 0, 324);
    rows_of(3, 2, three);
    table[6 + 97] = 0;
    table[6 + 98] = 1;
    set16(defaults, 0, 65535);
    set16(defaults, 2, 0);
    set16(defaults, 4, 1);
    /* Each of the two defaults shares one class, so write refuses the list in every room; the image that it had is still expanded, and rewritten to one of roots. */
    uint64_t retired = given[25];
    for (size_t room = 0; room <= 324; room++) compared(WRITE, table, 280, 6, 0, room);
    if (given[25] != retired + 325) fail("the three states are 25 in every room", 0);
    if (reference_image(table, 280, defaults, 6, wanted, sizeof wanted).length != 314) fail("the three states", 0);
    expect_image(314, 4, 2, 1, "the three states");
    memcpy(image, wanted, 314);
    if (compared(EXPAND, image, 314, 0, 0, 280) != 280 || memcmp(wanted, table, 280)) fail("the three states expanded", 0);
    if (compared(REWRITE, image, 314, 0, 0, 322) != 322) fail("the three states rewritten", 0);
    expect_image(322, 6, 0, 0, "the three states rewritten");
    set16(defaults, 0, 2);
    uint64_t circles = given[11];
    compared(WRITE, table, 280, 6, 0, 400);
    if (given[11] != circles + 1) fail("11 before 25", 0);
    for (uint32_t bound = 0; bound < 65536; bound += bound < 5 ? 1 : 13106)
        if (compared(COMPACT, table, 280, 0, bound, 322) != 322) fail("the three states with any D", bound);
    static const uint16_t eight[24] = {0};
    rows_of(8, 3, eight);
    if (compared(COMPACT, table, 262 + 16 + 48, 0, 2, 340) != 340) fail("eight equal rows", 0);
    expect_image(340, 3, 1, 1, "eight equal rows");
    /* Of the requests: BGS gives four pairs, REF the star at 0. */
    order = 1;
    if (compared(COMPACT, table, 262 + 16 + 48, 0, 2, 376) != 376) fail("eight equal rows, BGS", 0);
    expect_image(376, 12, 1, 1, "eight equal rows, BGS");
    for (uint32_t s = 0; s < 8; s++)
        if (number16(wanted, 376 - 12 - 48 - 32 + 4 * s) != (s % 2 ? s - 1 : 65535)) fail("eight equal rows, the pairs of BGS", s);
    order = 2;
    if (compared(COMPACT, table, 262 + 16 + 48, 0, 2, 340) != 340) fail("eight equal rows, REF", 0);
    expect_image(340, 3, 1, 1, "eight equal rows, REF");
    /* No payload leaves the start, so in order 3 no state has a default. */
    order = 3;
    if (compared(COMPACT, table, 262 + 16 + 48, 0, 2, 424) != 424) fail("eight equal rows, toward the start", 0);
    expect_image(424, 24, 0, 0, "eight equal rows, toward the start");
    order = 0;
    /* Figure 4.1 of document 000: with D 3 and more 6 entries and 5 defaults. */
    static const uint16_t figure[] = {1, 2, 3, 0, 1, 2, 3, 4, 1, 2, 3, 4, 1, 5, 3, 4, 1, 2, 3, 0, 1, 2, 3, 4};
    static const uint32_t cost[] = {24, 16, 13, 11};
    rows_of(6, 4, figure);
    for (uint32_t bound = 0; bound < 8; bound++) {
        size_t length = compared(COMPACT, table, 262 + 12 + 48, 0, bound, 500);
        uint32_t used = 0;
        for (uint32_t s = 0; s < 6; s++) used += number16(wanted, length - 12 - 4 * number32(wanted, 8) - 24 + 4 * s) != 65535;
        if (number32(wanted, 8) + used != cost[bound < 3 ? bound : 3]) fail("figure 4.1", bound);
    }
}

/* The tree (0,1), (1,2), (2,3), (2,4), from a table in which all pairs agree on two classes and those four on one more. Its centres are 1 and 2. In the tree 2 has more
 * neighbours, though over all pairs of weight 1 or more both have four; so every chain ends at 2. */
static void wrong_centre(void) {
    static const uint16_t five[] = {0, 0, 0, 0, 0, 0, 0, 0, 0, 1, 1, 1, 0, 0, 2, 1, 2, 2, 0, 0, 3, 3, 2, 3, 0, 0, 4, 4, 4, 2};
    static const uint32_t falls[] = {1, 2, 65535, 2, 2}, bounds[] = {3, 4, 5, 65535};
    rows_of(5, 6, five);
    for (order = 0; order <= 2; order++)
        for (size_t i = 0; i < 4; i++) {
            if (compared(COMPACT, table, 262 + 10 + 60, 0, bounds[i], 382) != 382) fail("the tree of five", bounds[i]);
            expect_image(382, 18, 2, 2, "the tree of five");
            for (uint32_t s = 0; s < 5; s++)
                if (number16(wanted, 382 - 12 - 72 - 20 + 4 * s) != falls[s]) fail("the tree of five falls to 2", s);
        }
    order = 0;
}

/* Tables with many equal rows, at the bounds where the forest changes. */
static void forests(int rounds) {
    while (rounds--) {
        uint32_t n = 1 + below(rounds % 50 ? 24 : 60), k = 1 + below(9);
        size_t length = either_edition(table, make_table(table, n, k, 128 + below(129)));
        uint32_t bounds[] = {0, 1, 2, 3, 4, 7, n - 1, 65535};
        for (size_t i = 0; i < sizeof bounds / sizeof *bounds; i++)
            if (i == 7 - (uint32_t)rounds % 8) with_rooms(COMPACT, table, length, 0, bounds[i]);
            else compared(COMPACT, table, length, 0, bounds[i], LONGEST_IMAGE);
        table[below((uint32_t)length)] = (uint8_t)below(256);
        compared(COMPACT, table, length, 0, below(8), below(2) ? LONGEST_IMAGE : 0);
    }
}

/* Small tables dense in ties, in every order; growth is cut at 0 only from a longest path of 4 on, so some have 24 states. */
static void orders(int rounds) {
    while (rounds--) {
        uint32_t n = 1 + below(rounds % 10 ? 12 : 24), k = 1 + below(5), bound = below(8) ? below(7) : 65535;
        size_t length = either_edition(table, make_table(table, n, k, 128 + below(129)));
        for (order = 0; order <= 3; order++) compared(COMPACT, table, length, 0, bound, LONGEST_IMAGE);
    }
    order = 0;
}

/* Tables of up to 512 states in the orders 1 to 3, at all kinds of bounds and weights. */
static void large_orders(int rounds) {
    static const uint32_t bounds[] = {1, 2, 3, 4, 8, 20, 65535};
    while (rounds--) {
        uint32_t n = rounds % 25 ? 1 + below(160) : 512 - below(100), k = rounds % 4 ? 2 + below(20) : 256 - below(100);
        size_t length = either_edition(table, make_table(table, n, k, rounds % 4 ? 180 + below(70) : 100 + below(150)));
        for (order = 1; order <= 3; order++) compared(COMPACT, table, length, 0, bounds[below(7)], LONGEST_IMAGE);
    }
    order = 0;
}

/* An order above 3 is refused before all else: a table of no bytes, one that is refused, a room of no bytes. */
static void no_such_order(void) {
    static const uint32_t none[] = {4, 5, 255, 256, 257, 258, 259, 65535, 65536, 65537, 65538, 65539, 0x80000000, 0x80000003, 0xffffffff};
    size_t length = make_table(table, 5, 3, 200);
    for (size_t i = 0; i < sizeof none / sizeof *none; i++) {
        order = none[i];
        if (i == sizeof none / sizeof *none / 2) length = make_second(table, length, 16);
        compared(COMPACT, table, 0, 0, 2, 0);
        compared(COMPACT, table, length - 1, 0, 2, 400);
        with_rooms(COMPACT, table, length, 0, 2);
    }
    uint64_t too_short = given[1];
    for (order = 0; order <= 3; order++) compared(COMPACT, table, 0, 0, 2, 0);
    if (given[1] != too_short + 4) fail("a table of no bytes is 1 in each order", cases);
    order = 0;
}

int main(void) {
    begin(4);
    papers_cases();
    wrong_centre();
    round_trips(2200);
    forests(1000);
    no_such_order();
    orders(20000);
    large_orders(100);
    say("building");
    return 0;
}
