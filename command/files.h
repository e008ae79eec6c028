/* Files, whole: read into memory, and written so that a copy that was cut never stands under its final name. */
#ifndef FILES_H
#define FILES_H

#include <stddef.h>
#include <stdint.h>

/* Reads a file of at most `most` bytes into `bytes`, which has room for one byte more. Answers the length; more than `most` where the file is longer.
 * Says what is wrong and ends with status 3 where it cannot be read. */
size_t read_file(const char *name, uint8_t *bytes, size_t most);

/* Opens a file that is to be read in pieces, and reads the next piece of at most `most` bytes; 0 bytes are its end. Each says what is wrong and ends with status 3
 * where it cannot be done. */
int open_file(const char *name);
size_t read_piece(int file, const char *name, uint8_t *bytes, size_t most);

/* Tells whether bytes read back are what was to be written. */
typedef int accepts(const uint8_t *bytes, size_t length);

/* Writes a file beside its place, syncs it, reads it back, compares it and has it accepted, and only then gives it its name. Says what is wrong and ends
 * with status 3 where any of that fails; the file that stood there before is then as it was. */
void write_file(const char *name, const uint8_t *bytes, size_t length, accepts *accepted);

#endif
