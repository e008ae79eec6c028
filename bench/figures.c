/* The rows of bench/run. Each row is one operation on one case, by the archive and by C; where they differ the program ends with status 1. Prints for each
 * row: its number, the operation, the case, the bytes of the table and of the image, both times in milliseconds and the archive's stack in bytes; - for
 * what has no meaning there. Under callgrind it prints nothing and has the instructions written out, named by the row's number. */
#include <stdio.h>
#include <string.h>

#include "cases.h"
#include "operations.h"

/* Does the action, counted under the row's number and the side's name. */
static void counted_row(uint32_t row, const char *side, action *act) {
    char name[32];
    snprintf(name, sizeof name, "row %u %s", (unsigned)row, side);
    counted(name, act);
}

static void print_bytes(size_t bytes) {
    if (bytes) printf("\t%zu", bytes);
    else printf("\t-");
}

/* One operation on the case at hand. */
static void row(const operation *o) {
    static uint32_t rows;
    rows++;
    if (o->less) counted_row(rows, "less", o->less);
    memset(&by_archive, 0, sizeof by_archive);
    memset(&by_c, 0, sizeof by_c);
    counted_row(rows, "archive", o->archive);
    counted_row(rows, "c", o->c);
    compare(o);
    if (counting()) return;
    action *const acts[] = {o->archive, o->c, o->less};
    double ms[3] = {0, 0, 0};
    timed(acts, o->less ? 3 : 2, ms);
    /* A table is judged and walked without a bound and without an image. */
    const char *bound = o->on_table ? strstr(case_name, ", D") : NULL;
    const char *rest = bound ? bound + strcspn(bound + 2, ",") + 2 : "";
    printf("%u\t%s\t%.*s%s", (unsigned)rows, o->name, (int)(bound ? bound - case_name : (long)sizeof case_name), case_name, rest);
    print_bytes(given.table_length);
    print_bytes(o->on_table ? 0 : given.image_length);
    printf("\t%.6f\t%.6f", ms[0] - ms[2], ms[1]);
    /* The stack of a scan or a walk is that of the whole operation. */
    print_bytes(o->less ? 0 : stack_of(o->archive));
    printf("\n");
}

/* An operation on both word lists with one bound or two. */
static void word_rows(const operation *o, uint32_t last_bound) {
    for (uint32_t k = 27; k <= 209; k += 182)
        for (uint32_t bound = 2; bound <= last_bound; bound += 6) {
            use_words(k, bound);
            row(o);
        }
}

/* A scan of both word lists with both bounds and both payloads. */
static void scan_rows(const operation *o) {
    for (uint32_t k = 27; k <= 209; k += 182)
        for (uint32_t bound = 2; bound <= 8; bound += 6)
            for (int near = 0; near < 2; near++) {
                use_words(k, bound);
                use_payload(near);
                row(o);
            }
}

/* A walk of both word lists with both payloads. */
static void walk_rows(const operation *o) {
    for (uint32_t k = 27; k <= 209; k += 182)
        for (int near = 0; near < 2; near++) {
            use_words(k, 2);
            use_payload(near);
            row(o);
        }
}

/* An operation on the largest table of random rows. */
static void random_row(const operation *o) {
    use_largest("random", 3);
    row(o);
}

/* Rewrite of both word lists and of the largest table of random rows, which have no default to drop, and of an image that has 256. */
static void rewrite_rows(const operation *o) {
    word_rows(o, 2);
    random_row(o);
    use_unworthy();
    row(o);
}

/* A move on both word lists and on the largest table of random rows; back takes what forward makes of them. */
static void move_rows(const operation *o, int second) {
    for (uint32_t k = 27; k <= 209; k += 182) {
        use_words(k, 2);
        if (second) use_forward();
        row(o);
    }
    use_largest("random", 3);
    if (second) use_forward();
    row(o);
}

static const char *const shapes[] = {"equal", "path", "random"};

/* Compact in an order above 0, on both word lists and the largest tables, with three bounds. */
static void order_rows(const operation *o, uint32_t order) {
    static const uint32_t bounds[] = {1, 3, 65535};
    for (size_t i = 0; i < 3; i++) {
        for (uint32_t k = 27; k <= 209; k += 182) {
            use_words(k, bounds[i]);
            use_order(order);
            row(o);
        }
        for (size_t shape = 0; shape < 3; shape++) {
            use_largest(shapes[shape], bounds[i]);
            use_order(order);
            row(o);
        }
    }
}

/* Compact in order 3, which has no bound, on the same tables and on one of 511 levels. */
static void toward_rows(const operation *o) {
    for (uint32_t k = 27; k <= 209; k += 182) {
        use_words(k, 2);
        use_order(3);
        row(o);
    }
    for (size_t shape = 0; shape < 3; shape++) {
        use_largest(shapes[shape], 3);
        use_order(3);
        row(o);
    }
    use_levels(3);
    use_order(3);
    row(o);
}

/* An operation on both word lists in edition 2, and on the largest table with 16 labels on each state. */
static void list_rows(const operation *o) {
    for (uint32_t k = 27; k <= 209; k += 182) {
        use_lists(k, 2);
        row(o);
    }
    use_full_lists(3);
    row(o);
}

/* A scan or a walk of the same, the word lists with both payloads and a scan with both bounds; last the bytes that give 16 reports each. */
static void list_runs(const operation *o) {
    for (uint32_t k = 27; k <= 209; k += 182)
        for (uint32_t bound = 2; bound <= (o->on_table ? 2 : 8); bound += 6)
            for (int near = 0; near < 2; near++) {
                use_lists(k, bound);
                use_payload(near);
                row(o);
            }
    use_full_lists(3);
    row(o);
}

/* Strings of both lists of words, and of the strings made to hurt. */
static void strings_rows(const operation *o) {
    for (uint32_t k = 27; k <= 209; k += 182) {
        use_listed_words(k);
        row(o);
    }
    use_overlapping_strings();
    row(o);
}

/* Reduce of both word lists as they are and with shared labels, of the largest tables of random rows in both editions, of one four times over and of the chain that splits one by one. */
static void reduce_rows(const operation *o) {
    word_rows(o, 2);
    for (uint32_t k = 27; k <= 209; k += 182) {
        use_shared_labels(k);
        row(o);
    }
    random_row(o);
    use_full_lists(3);
    row(o);
    use_fourfold();
    row(o);
    use_splitting_chain();
    row(o);
}

/* What takes a patch, on both word lists with one state listed and with 64, on the largest table of random rows, in edition 2 with 16 labels on each state, and on the chain. */
static void patch_rows(const operation *o) {
    for (uint32_t k = 27; k <= 209; k += 182)
        for (uint32_t listed = 1; listed <= 64; listed += 63) {
            use_words(k, 2);
            use_patch(listed);
            row(o);
        }
    use_largest("random", 3);
    use_patch(64);
    row(o);
    use_full_lists(3);
    use_patch(64);
    row(o);
    use_patched_chain();
    row(o);
}

/* A patched scan of both word lists with both payloads, and of the largest table in edition 2: the scans of the images that the patches make, which are the images themselves, have rows of their own. */
static void patched_runs(const operation *o) {
    for (uint32_t k = 27; k <= 209; k += 182)
        for (int near = 0; near < 2; near++)
            for (uint32_t listed = 1; listed <= 64; listed += 63) {
                use_words(k, 2);
                use_payload(near);
                use_patch(listed);
                row(o);
            }
    use_full_lists(3);
    use_patch(64);
    row(o);
}

int main(void) {
    word_rows(&judging_a_table, 2);
    random_row(&judging_a_table);
    word_rows(&judging_an_image, 8);
    random_row(&judging_an_image);
    word_rows(&compact, 2);
    for (size_t shape = 0; shape < 3; shape++)
        for (uint32_t bound = 3; bound <= 65535; bound += 65532) {
            use_largest(shapes[shape], bound);
            row(&compact);
        }
    word_rows(&compact_seeking, 2);
    random_row(&compact_seeking);
    order_rows(&compact_bgs, 1);
    order_rows(&compact_ref, 2);
    toward_rows(&compact_toward);
    toward_rows(&compact_toward_sparing);
    word_rows(&write_with_a_list, 2);
    random_row(&write_with_a_list);
    word_rows(&expand, 2);
    random_row(&expand);
    strings_rows(&strings_of_a_list);
    strings_rows(&strings_linking);
    reduce_rows(&reduce);
    reduce_rows(&reduce_with_judging);
    rewrite_rows(&rewrite);
    rewrite_rows(&rewrite_with_judging);
    move_rows(&forward, 0);
    move_rows(&forward_with_judging, 0);
    move_rows(&back, 1);
    move_rows(&back_with_judging, 1);
    scan_rows(&scan);
    scan_rows(&scan_with_judging);
    walk_rows(&walk);
    walk_rows(&walk_with_judging);
    patch_rows(&judging_a_patch);
    patch_rows(&apply);
    patch_rows(&apply_with_judging);
    patched_runs(&scan_patched);
    patched_runs(&scan_patched_with_judging);
    use_detour();
    use_patch(64);
    row(&scan_patched);
    use_flat();
    row(&judging_an_image);
    use_chain();
    row(&judging_an_image);
    use_detour();
    row(&scan);
    row(&scan_with_judging);
    list_rows(&second_judging_a_table);
    list_rows(&second_judging_an_image);
    list_rows(&second_compact);
    list_rows(&second_write);
    list_rows(&second_expand);
    list_runs(&second_scan);
    list_runs(&second_scan_with_judging);
    list_runs(&second_walk);
    list_runs(&second_walk_with_judging);
    return 0;
}
