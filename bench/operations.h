/* The operations on one set of inputs, by the archive and by plain C, each into an outcome of its own. */
#ifndef OPERATIONS_H
#define OPERATIONS_H

#include "kamordast.h"
#include "measure.h"
#include "support.h"

typedef struct {
    uint8_t list[KAMORDAST_LONGEST_LIST], table[LONGEST_TABLE], image[LONGEST_IMAGE], defaults[1024], patch[KAMORDAST_LARGEST_PATCH], payload[65536];
    size_t list_length, table_length, image_length, defaults_length, patch_length, payload_length;
    uint32_t bound, state;
} inputs;

/* All numbers of an answer, and the room: what was built, rewritten, moved or applied has its length in `taken`. */
typedef struct {
    kamordast_scanned numbers;
    uint8_t room[LONGEST_IMAGE];
} outcome;

extern inputs given;
extern outcome by_archive, by_c;

/* An operation; `less` is what is to be taken off the archive's figures, or NULL; `on_table` that it has neither a bound nor an image. */
typedef struct {
    const char *name;
    action *archive, *c, *less;
    int on_table;
} operation;

extern const operation judging_a_table, judging_an_image, compact, compact_seeking, compact_bgs, compact_ref, compact_toward, compact_toward_sparing;
extern const operation write_with_a_list, expand, scan, scan_with_judging, walk, walk_with_judging;
extern const operation strings_of_a_list, strings_linking, reduce, reduce_with_judging, rewrite, rewrite_with_judging, forward, forward_with_judging, back, back_with_judging;

/* With an image of either edition and a patch. */
extern const operation judging_a_patch, apply, apply_with_judging, scan_patched, scan_patched_with_judging;

/* The same on inputs of edition 2: of the archive the same functions, of plain C those of that edition. */
extern const operation second_judging_a_table, second_judging_an_image, second_compact, second_write, second_expand;
extern const operation second_scan, second_scan_with_judging, second_walk, second_walk_with_judging;

/* Ends the program where the archive and C do not have the same outcome, or refuse. */
void compare(const operation *o);

#endif
