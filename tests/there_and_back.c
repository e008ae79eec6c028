#include "there_and_back.h"

#include <string.h>

#include "kamordast.h"
#include "support.h"

/* Whether an image of edition 2 has a state with more than one label. */
static int several_labels(const uint8_t *image) {
    for (uint32_t s = 0; s < states_in(image); s++)
        if (number16(image, 268 + 2 * (size_t)s) > 1) return 1;
    return 0;
}

int there_and_back(const uint8_t *image, size_t length, uint64_t number) {
    static uint8_t there[LONGEST_IMAGE], again[LONGEST_IMAGE];
    int second = edition_in(image) == 2;
    kamordast_built wrong = second ? kamordast_forward(image, length, there, sizeof there) : kamordast_back(image, length, there, sizeof there);
    if (wrong.refused != 20 || wrong.length) fail("the wrong direction is not 20", number);
    kamordast_built moved = second ? kamordast_back(image, length, there, sizeof there) : kamordast_forward(image, length, there, sizeof there);
    if (second && several_labels(image)) {
        if (moved.refused != 21 || moved.length) fail("several labels going back are not 21", number);
        return 0;
    }
    if (moved.refused || kamordast_judge_image(there, moved.length)) fail("a moved image is refused", number);
    if (edition_in(there) == edition_in(image) || states_in(there) != states_in(image)) fail("a moved image is not of the other edition", number);
    kamordast_built back = second ? kamordast_forward(there, moved.length, again, sizeof again) : kamordast_back(there, moved.length, again, sizeof again);
    if (back.refused || back.length != length || memcmp(again, image, length)) fail("an image does not come back byte for byte", number);
    return 1;
}
