/* Every image of the suites is rewritten by the archive, and written again. */
#ifndef REWRITTEN_H
#define REWRITTEN_H

#include <stddef.h>
#include <stdint.h>

/* Ends the test where an accepted image is not rewritten to one that is accepted, is of its edition, expands to the same table and has no default that shares fewer than two classes with its state; where one without
 * such a default does not come back byte for byte, or one with such does not go to the other edition and back; or where its table, written with its own defaults, is not the image again, or 25 where it has such a default. Answers how many went. */
uint32_t rewritten(const uint8_t *image, size_t length, uint64_t number);

#endif
