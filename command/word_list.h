/* Word lists as text: a line for each string, which is its label in decimal, one tab and the string. In the string \xNN is the byte with the two hexadecimal digits NN, \t a tab, \n a line's end and \\ a backslash; any other byte
 * that is no control character stands for itself. */
#ifndef WORD_LIST_H
#define WORD_LIST_H

#include <stddef.h>
#include <stdint.h>

#include "kamordast.h"

enum {
    /* Where every byte is written \xNN, every label has five digits and every line ends. */
    LONGEST_LINE = 5 + 1 + 4 * KAMORDAST_LONGEST_STRING + 1,
    LONGEST_TEXT = LONGEST_LINE * KAMORDAST_MOST_STRINGS,
};

/* Makes of the first bytes of a text, as many as LONGEST_TEXT and one more are enough, the list that kamordast_strings takes, of KAMORDAST_LONGEST_LIST bytes at most; answers its length. Where a line is none, `line` is its number,
 * from 1, and `fault` a sentence; else `line` is 0. */
size_t list_of_text(const uint8_t *text, size_t length, uint8_t *list, uint32_t *line, const char **fault);

/* The line of the string that a list was refused for with this number, where that is 27, 19 or 28; else 0. */
uint32_t refused_line(const uint8_t *list, uint32_t number);

#endif
