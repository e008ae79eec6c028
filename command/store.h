/* The room that results are made in, and a result put from there into a file. */
#ifndef STORE_H
#define STORE_H

#include "files.h"
#include "kamordast.h"
#include "layout.h"

extern uint8_t room[LONGEST_REPORTS + LONGEST_IMAGE];

/* What a file that was read back is held to. */
accepts is_image, is_table;

/* A result in the room goes to a file; where it was refused, says so of what it was made from. Answers the status. */
int store(const char *from, kamordast_built built, const char *name, accepts *accepted);

#endif
