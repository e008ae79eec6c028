/* The operator sheet's sentences (docs/OPERATORS.md): what each refusal means and what to do. */
#ifndef REFUSALS_H
#define REFUSALS_H

#include <stdint.h>

/* What the refusal means, and what to do, of each a sentence; for a number that is none, that. */
const char *refusal_meaning(uint32_t number);
const char *refusal_advice(uint32_t number);

/* Says of a file, or of a word that was typed, that it is refused, what that means and what to do. Answers the status. */
int refuse(const char *name, uint32_t number);

#endif
