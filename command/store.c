#include "store.h"

#include <stdio.h>

#include "refusals.h"
#include "status.h"

uint8_t room[LONGEST_REPORTS + LONGEST_IMAGE];

int is_image(const uint8_t *bytes, size_t length) { return kamordast_judge_image(bytes, length) == 0; }
int is_table(const uint8_t *bytes, size_t length) { return kamordast_judge_table(bytes, length) == 0; }

int store(const char *from, kamordast_built built, const char *name, accepts *accepted) {
    if (built.refused) return refuse(from, built.refused);
    write_file(name, room, built.length, accepted);
    printf("%s: %u bytes, read back and accepted\n", name, (unsigned)built.length);
    return DONE;
}
