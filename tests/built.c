/* The operations that build, run in guarded buffers beside the reading. */
#include "built.h"

#include <stdio.h>
#include <string.h>

#include "kamordast.h"
#include "old_loader.h"
#include "reference/reference.h"
#include "rewritten.h"
#include "there_and_back.h"

uint8_t table[LONGEST_TABLE], image[LONGEST_IMAGE], defaults[1100], wanted[LONGEST_IMAGE + 64];
uint32_t order;
uint64_t cases, given[29];

/* How many results were of edition 2. */
static uint64_t second;

static guarded lent_input, lent_list, lent_room;

void begin(uint64_t from) {
    lent_input = guard(LONGEST_IMAGE);
    lent_list = guard(1100);
    lent_room = guard(LONGEST_IMAGE + 64);
    seed(from);
}

/* Whether the operation makes a table; and the edition of what it makes. */
static int makes_table(enum operation o) { return o == EXPAND || o == STRINGS || o == REDUCE; }
static uint32_t wanted_edition(enum operation o, const uint8_t *input) { return o == STRINGS ? 2 : o == FORWARD || o == BACK ? 3 - edition_in(input) : edition_in(input); }

size_t compared(enum operation o, const uint8_t *input, size_t length, size_t list_length, uint32_t bound, size_t room_length) {
    uint8_t *in = at_either(&lent_input, length, cases), *list = at_either(&lent_list, list_length, cases), *room = at_either(&lent_room, room_length, cases);
    memcpy(in, input, length);
    memcpy(list, defaults, list_length);
    memset(room, 170, room_length);
    memset(wanted, 170, room_length);
    reference_built right;
    kamordast_built answer;
    switch (o) {
    case WRITE:
        right = reference_write(input, length, defaults, list_length, wanted, room_length);
        answer = kamordast_write(in, length, list, list_length, room, room_length);
        break;
    case EXPAND:
        right = reference_expand(input, length, wanted, room_length);
        answer = kamordast_expand(in, length, room, room_length);
        break;
    case FORWARD:
        right = reference_forward(input, length, wanted, room_length);
        answer = kamordast_forward(in, length, room, room_length);
        break;
    case REWRITE:
        right = reference_rewrite(input, length, wanted, room_length);
        answer = kamordast_rewrite(in, length, room, room_length);
        break;
    case STRINGS:
        right = reference_strings(input, length, wanted, room_length);
        answer = kamordast_strings(in, length, room, room_length);
        break;
    case REDUCE:
        right = reference_reduce(input, length, wanted, room_length);
        answer = kamordast_reduce(in, length, room, room_length);
        break;
    case BACK:
        right = reference_back(input, length, wanted, room_length);
        answer = kamordast_back(in, length, room, room_length);
        break;
    default:
        right = reference_compact(input, length, order, bound, wanted, room_length);
        /* Order 0 by either name. */
        answer = order == 0 && cases % 2 ? kamordast_compact(in, length, (uint16_t)bound, room, room_length)
                                         : kamordast_compact_in_order(in, length, order, (uint16_t)bound, room, room_length);
    }
    if (answer.refused != right.refused) {
        printf("operation %d: %u for %u: ", o, answer.refused, right.refused);
        fail("the number differs", cases);
    }
    if (answer.length != right.length) fail("the length differs", cases);
    if (memcmp(room, wanted, room_length)) fail("the room differs", cases);
    if (memcmp(in, input, length) || memcmp(list, defaults, list_length)) fail("a lent byte was changed", cases);
    if (answer.length && edition_in(room) != wanted_edition(o, input)) fail("the result is of the wrong edition", cases);
    int makes_image = !makes_table(o);
    if (answer.length && !makes_image && kamordast_judge_table(room, answer.length)) fail("a table that was made is refused", cases);
    if (answer.length && makes_image) {
        there_and_back(room, answer.length, cases);
        rewritten(room, answer.length, cases);
    }
    /* That takes long for an image of edition 1, so one in ten of these is shown. */
    if (answer.length && makes_image && (edition_in(room) == 2 || cases % 10 == 0)) old_loader(room, answer.length, 0, cases);
    second += answer.length && edition_in(room) == 2;
    given[right.refused]++;
    cases++;
    return right.length;
}

size_t with_rooms(enum operation o, const uint8_t *input, size_t length, size_t list_length, uint32_t bound) {
    size_t most = makes_table(o) ? LONGEST_TABLE : LONGEST_IMAGE, result = compared(o, input, length, list_length, bound, most);
    compared(o, input, length, list_length, bound, 0);
    if (result) {
        compared(o, input, length, list_length, bound, result);
        compared(o, input, length, list_length, bound, result - 1);
        compared(o, input, length, list_length, bound, result + 1 + below(40));
        compared(o, input, length, list_length, bound, below((uint32_t)result));
    }
    return result;
}

void rows_of(uint32_t n, uint32_t k, const uint16_t *rows) {
    set16(table, 0, n);
    set16(table, 2, k);
    set16(table, 4, 0);
    memset(table + 6, 0, 256);
    for (uint32_t c = 1; c < k; c++) table[6 + 96 + c] = (uint8_t)c;
    memset(table + 262, 0, 2 * n);
    for (uint32_t i = 0; i < n * k; i++) set16(table, 262 + 2 * n + 2 * i, rows[i]);
}

void expect_image(uint32_t length, uint32_t entries, uint32_t depth, uint32_t worst, const char *name) {
    if (number32(wanted, 8) != entries || number16(wanted, 6) != depth || number16(wanted, length - 4) != worst || number32(wanted, length - 8) != length) fail(name, cases);
}

void expect_defaults(const uint16_t *falls, const char *name) {
    size_t records = records_in(wanted);
    for (uint32_t s = 0; s < states_in(wanted); s++)
        if (number16(wanted, records + 4 * s) != falls[s]) fail(name, s);
}

void say(const char *name) {
    if (!second) fail("no result was of edition 2", cases);
    printf("%s: %llu cases agree, with %llu results of edition 2\n  given  ", name, (unsigned long long)cases, (unsigned long long)second);
    for (int r = 0; r < 29; r++)
        if (given[r]) printf(" %d:%llu", r, (unsigned long long)given[r]);
    printf("\n");
}
