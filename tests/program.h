/* A program that stands in target/bin, run on an input: what it prints is held to a text, byte for byte. */
#ifndef PROGRAM_H
#define PROGRAM_H

#include <stddef.h>
#include <stdint.h>

/* Reads how the program is started: the words of the test's own call behind the first. */
void use_program(int count, char **words);

/* Runs the program with an input on its standard input, a pipe that is filled in pieces, and ends the test where its status is not 0 or a byte of its standard output is not
 * the text's. */
void expect_text(const uint8_t *input, size_t length, const char *text, size_t text_length, uint64_t number);

#endif
