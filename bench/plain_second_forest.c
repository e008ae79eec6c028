/* The defaults of a table of edition 2 in plain C. Labels decide no default, so this is the code of edition 1, compiled once more with n read as edition 2 has it. */
#define PLAIN_N plain_states
#define plain_defaults plain_second_defaults
#define plain_toward plain_second_toward
#include "plain_forest.c"
#include "plain_toward.c"
