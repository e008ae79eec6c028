/* Compact in order 3, toward the start, against the independent reading: a table by hand that tells the rule from its neighbours, tables in levels of both editions, and the
 * longest chain. */
#include <string.h>

#include "built.h"

/* Seven states of the levels 4, 2, 0, none, 3, 1 and 4. State 5 shares one class with the start, which is not enough. State 1 shares two with 2 and with 5, and
 * state 0 two with 1, 2 and 4: the smaller number, whatever its level. State 4 shares two with 1, one level lower, three with 5, two levels lower, and all with 3,
 * which no payload reaches. State 6 is like 0, but of the same level. */
static void by_hand(void) {
    static const uint16_t seven[] = {2, 2, 0, 0, 0, 2, 2, 5, 4, 1, 2, 2, 2, 5, 2, 2, 5, 5, 0, 6, 2, 5, 5, 0, 6, 2, 5, 5, 1, 5, 2, 2, 0, 0, 0};
    static const uint16_t falls[] = {1, 2, 65535, 65535, 5, 65535, 1};
    rows_of(7, 5, seven);
    set16(table, 4, 2);
    if (with_rooms(COMPACT, table, 262 + 14 + 70, 0, 0) != 426) fail("the seven states", 0);
    compared(COMPACT, table, 262 + 14 + 70, 0, 65535, 426);
    expect_image(426, 26, 2, 2, "the seven states");
    expect_defaults(falls, "the defaults of the seven states");
}

/* Tables in levels, from one class on and of up to 511 levels, with states that no payload reaches. The bound decides nothing. */
static void in_levels(int rounds) {
    static const uint32_t bounds[] = {0, 1, 7, 65535};
    while (rounds--) {
        uint32_t n = rounds % 100 ? 1 + below(30) : 512, k = 1 + below(rounds % 10 ? 9 : 2), reached = below(3) ? n : 1 + below(n), wide = below(2) ? 1 : 1 + below(6);
        size_t length = either_edition(table, make_levels(table, n, k, below(257), reached, wide)), result = with_rooms(COMPACT, table, length, 0, 2);
        for (size_t i = 0; i < 4; i++) {
            if (compared(COMPACT, table, length, 0, bounds[i], result) != result || (i && memcmp(wanted, image, result))) fail("the bound decides in order 3", bounds[i]);
            memcpy(image, wanted, result);
        }
        table[below((uint32_t)length)] = (uint8_t)below(256);
        compared(COMPACT, table, length, 0, below(8), below(2) ? LONGEST_IMAGE : 0);
    }
}

/* One class is never enough to share. */
static void one_class(int rounds) {
    while (rounds--) {
        uint32_t n = 1 + below(40);
        size_t length = either_edition(table, make_table(table, n, 1, below(257))), result = with_rooms(COMPACT, table, length, 0, below(8));
        if (result != rows_in(table) + 18 + 8 * n) fail("a default with one class", n);
    }
}

/* The stairs have 511 levels behind the start, and in order 3 a chain of 511 defaults, whatever the bound. */
static void stairs(void) {
    uint16_t falls[512];
    for (uint32_t s = 0; s < 512; s++) falls[s] = (uint16_t)(s ? s - 1 : 65535);
    size_t length = make_stairs(table), image_length = 7484;
    for (int edition = 1; edition <= 2; edition++) {
        if (edition == 2) {
            size_t longer = make_second(table, length, 16);
            image_length += longer - length;
            length = longer;
        }
        if (with_rooms(COMPACT, table, length, 0, 3) != image_length) fail("the stairs", 0);
        compared(COMPACT, table, length, 0, 3, image_length);
        expect_image((uint32_t)image_length, 1033, 511, 511, "the stairs");
        expect_defaults(falls, "the defaults of the stairs");
    }
}

int main(void) {
    begin(17);
    order = 3;
    by_hand();
    in_levels(2000);
    one_class(200);
    stairs();
    say("toward the start");
    return 0;
}
