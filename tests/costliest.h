/* The payload that costs the most hops of all payloads of its length, from any state of an accepted image. */
#ifndef COSTLIEST_H
#define COSTLIEST_H

#include <stddef.h>
#include <stdint.h>

typedef struct costliest costliest;

/* Finds them for all states at once, for payloads of so many bytes. */
costliest *find_costliest(const uint8_t *image, size_t length, size_t bytes);

/* Fills the payload that costs the most from a state; answers its hops. */
uint32_t costliest_from(const costliest *found, uint32_t state, uint8_t *payload);

void forget_costliest(costliest *found);

#endif
