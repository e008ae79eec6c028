#include "rewritten.h"

#include <string.h>

#include "kamordast.h"
#include "support.h"
#include "there_and_back.h"

uint32_t rewritten(const uint8_t *image, size_t length, uint64_t number) {
    static uint8_t again[LONGEST_IMAGE], table[LONGEST_TABLE], same[LONGEST_TABLE], defaults[1024];
    uint32_t gone = unworthy_in(image), n = states_in(image);
    kamordast_built built = kamordast_rewrite(image, length, again, sizeof again);
    if (built.refused || kamordast_judge_image(again, built.length)) fail("a rewritten image is refused", number);
    if (number16(again, 0) != number16(image, 0) || unworthy_in(again)) fail("a rewritten image is of another edition, or has a default that is not worth its hops", number);
    if (!gone && (built.length != length || memcmp(again, image, length))) fail("an image without such defaults is rewritten to other bytes", number);
    if (gone) there_and_back(again, built.length, number);
    kamordast_built table_of = kamordast_expand(image, length, table, sizeof table), same_of = kamordast_expand(again, built.length, same, sizeof same);
    if (table_of.refused || table_of.length != same_of.length || memcmp(table, same, same_of.length)) fail("a rewritten image expands to another table", number);
    size_t records = records_in(image);
    for (uint32_t s = 0; s < n; s++) memcpy(defaults + 2 * s, image + records + 4 * (size_t)s, 2);
    kamordast_built back = kamordast_write(table, table_of.length, defaults, 2 * (size_t)n, again, sizeof again);
    if (gone && back.refused != 25) fail("a list with such a default is not 25", number);
    if (!gone && (back.refused || back.length != length || memcmp(again, image, length))) fail("an image without such defaults is not written again", number);
    return gone;
}
