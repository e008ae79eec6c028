/* A loader of the first edition: the independent reading of the definition paper as it was before request C-15, its judge of an image alone. Boards in the field judge
 * so. It knows nothing of a second edition and is never changed again. */
#ifndef FIRST_EDITION_H
#define FIRST_EDITION_H

#include <stddef.h>
#include <stdint.h>

uint32_t first_edition_judge_image(const uint8_t *image, size_t length);

#endif
