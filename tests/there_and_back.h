/* Every image of the suites goes to the other edition and back by the archive. */
#ifndef THERE_AND_BACK_H
#define THERE_AND_BACK_H

#include <stddef.h>
#include <stdint.h>

/* Ends the test where an accepted image does not come back byte for byte, where what it becomes between is not accepted or not of the other edition, or where the direction that is not its
 * own is not refused with 20. An image of edition 2 with more than one label on a state must be refused with 21. Answers whether it was moved. */
int there_and_back(const uint8_t *image, size_t length, uint64_t number);

#endif
