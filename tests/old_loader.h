/* What a loader of the first edition says of an image: of edition 1 what is right, and 2 of whatever says that it is of edition 2. */
#ifndef OLD_LOADER_H
#define OLD_LOADER_H

#include "reference/first_edition.h"
#include "support.h"

/* Holds the loader to that; `right` is the number that the image is to be refused with, or 0. */
static inline void old_loader(const uint8_t *image, size_t length, uint32_t right, uint64_t number) {
    uint32_t wanted = length < 24 ? 1 : edition_in(image) == 2 ? 2 : right;
    if (first_edition_judge_image(image, length) != wanted) fail("a loader of the first edition answers otherwise", number);
}

#endif
