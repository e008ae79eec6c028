/* What the command answers to whoever called it (docs/OPERATORS.md). */
#ifndef STATUS_H
#define STATUS_H

enum { DONE = 0, REFUSED = 1, USAGE = 2, TROUBLE = 3, APART = 4 };

#endif
