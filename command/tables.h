/* The commands that make tables without an image: of a word list, and of a table that has states too many. */
#ifndef TABLES_H
#define TABLES_H

/* The table of a word list, as text or, `binary`, as the operation takes it. Answers the status. */
int strings(const char *from, const char *to, int binary);

/* The table without the states that no payload reaches or tells apart from another, and a line of what that did. Answers the status. */
int reduce(const char *from, const char *to);

#endif
