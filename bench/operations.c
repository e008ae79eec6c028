/* Each operation as two actions, one by the archive and one by plain C. */
#include "operations.h"

#include <string.h>

#include "plain.h"

inputs given;
outcome by_archive, by_c;

static kamordast_scanned answered(uint32_t refused) { return (kamordast_scanned){refused, 0, 0, 0, 0}; }

static kamordast_scanned built(kamordast_built b) { return (kamordast_scanned){b.refused, b.length, 0, 0, 0}; }

#define LIST given.list, given.list_length
#define TABLE given.table, given.table_length
#define IMAGE given.image, given.image_length
#define DEFAULTS given.defaults, given.defaults_length
#define PATCHED given.image, given.image_length, given.patch, given.patch_length
#define PAYLOAD given.state, given.payload, given.payload_length
#define ROOM(outcome) outcome.room, sizeof outcome.room

static void judge_table_archive(void) { by_archive.numbers = answered(kamordast_judge_table(TABLE)); }
static void judge_table_c(void) { by_c.numbers = answered(plain_judge_table(TABLE)); }

static void judge_image_archive(void) { by_archive.numbers = answered(kamordast_judge_image(IMAGE)); }
static void judge_image_c(void) { by_c.numbers = answered(plain_judge_image(IMAGE)); }

static void compact_archive(void) { by_archive.numbers = built(kamordast_compact(TABLE, (uint16_t)given.bound, ROOM(by_archive))); }
static void compact_c(void) { by_c.numbers = built(plain_compact(TABLE, 0, given.bound, 0, ROOM(by_c))); }
static void compact_c_seeking(void) { by_c.numbers = built(plain_compact(TABLE, 0, given.bound, 1, ROOM(by_c))); }
static void compact_bgs_archive(void) { by_archive.numbers = built(kamordast_compact_in_order(TABLE, 1, (uint16_t)given.bound, ROOM(by_archive))); }
static void compact_bgs_c(void) { by_c.numbers = built(plain_compact(TABLE, 1, given.bound, 0, ROOM(by_c))); }
static void compact_ref_archive(void) { by_archive.numbers = built(kamordast_compact_in_order(TABLE, 2, (uint16_t)given.bound, ROOM(by_archive))); }
static void compact_ref_c(void) { by_c.numbers = built(plain_compact(TABLE, 2, given.bound, 0, ROOM(by_c))); }
static void compact_toward_archive(void) { by_archive.numbers = built(kamordast_compact_in_order(TABLE, 3, (uint16_t)given.bound, ROOM(by_archive))); }
static void compact_toward_c(void) { by_c.numbers = built(plain_compact(TABLE, 3, given.bound, 0, ROOM(by_c))); }
static void compact_toward_c_sparing(void) { by_c.numbers = built(plain_compact(TABLE, 3, given.bound, 1, ROOM(by_c))); }

static void write_archive(void) { by_archive.numbers = built(kamordast_write(TABLE, DEFAULTS, ROOM(by_archive))); }
static void write_c(void) { by_c.numbers = built(plain_write(TABLE, DEFAULTS, ROOM(by_c))); }

static void expand_archive(void) { by_archive.numbers = built(kamordast_expand(IMAGE, ROOM(by_archive))); }
static void expand_c(void) { by_c.numbers = built(plain_expand(IMAGE, ROOM(by_c))); }

static void strings_archive(void) { by_archive.numbers = built(kamordast_strings(LIST, ROOM(by_archive))); }
static void strings_c(void) { by_c.numbers = built(plain_strings(LIST, 0, ROOM(by_c))); }
static void strings_c_linking(void) { by_c.numbers = built(plain_strings(LIST, 1, ROOM(by_c))); }

static void reduce_archive(void) { by_archive.numbers = built(kamordast_reduce(TABLE, ROOM(by_archive))); }
static void reduce_c(void) { by_c.numbers = built(plain_reduce(TABLE, ROOM(by_c))); }

static void judge_and_reduce_c(void) {
    uint32_t refused = states_in(given.table) == number16(given.table, 0) ? plain_judge_table(TABLE) : plain_second_judge_table(TABLE);
    by_c.numbers = refused ? answered(refused) : built(plain_reduce(TABLE, ROOM(by_c)));
}

static void rewrite_archive(void) { by_archive.numbers = built(kamordast_rewrite(IMAGE, ROOM(by_archive))); }
static void rewrite_c(void) { by_c.numbers = built(plain_rewrite(IMAGE, ROOM(by_c))); }

static void judge_and_rewrite_c(void) {
    uint32_t refused = plain_judge_image(IMAGE);
    by_c.numbers = refused ? answered(refused) : built(plain_rewrite(IMAGE, ROOM(by_c)));
}

static void forward_archive(void) { by_archive.numbers = built(kamordast_forward(IMAGE, ROOM(by_archive))); }
static void forward_c(void) { by_c.numbers = built(plain_forward(IMAGE, ROOM(by_c))); }
static void back_archive(void) { by_archive.numbers = built(kamordast_back(IMAGE, ROOM(by_archive))); }
static void back_c(void) { by_c.numbers = built(plain_back(IMAGE, ROOM(by_c))); }

static void judge_and_forward_c(void) {
    uint32_t refused = plain_judge_image(IMAGE);
    by_c.numbers = refused ? answered(refused) : built(plain_forward(IMAGE, ROOM(by_c)));
}

static void judge_and_back_c(void) {
    uint32_t refused = plain_second_judge_image(IMAGE);
    by_c.numbers = refused ? answered(refused) : built(plain_back(IMAGE, ROOM(by_c)));
}

static void scan_archive(void) { by_archive.numbers = kamordast_scan(IMAGE, PAYLOAD, ROOM(by_archive)); }
static void scan_c(void) { by_c.numbers = plain_scan(IMAGE, PAYLOAD, ROOM(by_c)); }

static void judge_and_scan_c(void) {
    uint32_t refused = plain_judge_image(IMAGE);
    by_c.numbers = refused ? answered(refused) : plain_scan(IMAGE, PAYLOAD, ROOM(by_c));
}

/* The image and the patch judged in C, of either edition. */
static uint32_t judged_both(void) {
    uint32_t refused = edition_in(given.image) == 1 ? plain_judge_image(IMAGE) : plain_second_judge_image(IMAGE);
    return refused ? refused : plain_judge_patch(PATCHED);
}

static kamordast_scanned patched_scan(void) { return edition_in(given.image) == 1 ? plain_scan_patched(PATCHED, PAYLOAD, ROOM(by_c)) : plain_second_scan_patched(PATCHED, PAYLOAD, ROOM(by_c)); }

static void judge_patch_archive(void) { by_archive.numbers = answered(kamordast_judge_patch(PATCHED)); }
static void judge_patch_c(void) { by_c.numbers = answered(judged_both()); }
static void apply_archive(void) { by_archive.numbers = built(kamordast_apply(PATCHED, ROOM(by_archive))); }
static void apply_c(void) { by_c.numbers = built(plain_apply(PATCHED, ROOM(by_c))); }
static void scan_patched_archive(void) { by_archive.numbers = kamordast_scan_patched(PATCHED, PAYLOAD, ROOM(by_archive)); }
static void scan_patched_c(void) { by_c.numbers = patched_scan(); }

static void judge_and_apply_c(void) {
    uint32_t refused = judged_both();
    by_c.numbers = refused ? answered(refused) : built(plain_apply(PATCHED, ROOM(by_c)));
}

static void judge_and_scan_patched_c(void) {
    uint32_t refused = judged_both();
    by_c.numbers = refused ? answered(refused) : patched_scan();
}

static void walk_archive(void) { by_archive.numbers = kamordast_walk(TABLE, PAYLOAD, ROOM(by_archive)); }
/* Its judging alone, as it stands in the walk: the judge by itself is compiled otherwise. */
static void walk_nothing(void) { by_archive.numbers = kamordast_walk(TABLE, given.state, given.payload, 0, ROOM(by_archive)); }
static void walk_c(void) { by_c.numbers = plain_walk(TABLE, PAYLOAD, ROOM(by_c)); }

static void judge_and_walk_c(void) {
    uint32_t refused = plain_judge_table(TABLE);
    by_c.numbers = refused ? answered(refused) : plain_walk(TABLE, PAYLOAD, ROOM(by_c));
}

static void second_judge_table_c(void) { by_c.numbers = answered(plain_second_judge_table(TABLE)); }
static void second_judge_image_c(void) { by_c.numbers = answered(plain_second_judge_image(IMAGE)); }
static void second_compact_c(void) { by_c.numbers = built(plain_second_compact(TABLE, 0, given.bound, 0, ROOM(by_c))); }
static void second_write_c(void) { by_c.numbers = built(plain_second_write(TABLE, DEFAULTS, ROOM(by_c))); }
static void second_expand_c(void) { by_c.numbers = built(plain_second_expand(IMAGE, ROOM(by_c))); }
static void second_scan_c(void) { by_c.numbers = plain_second_scan(IMAGE, PAYLOAD, ROOM(by_c)); }
static void second_walk_c(void) { by_c.numbers = plain_second_walk(TABLE, PAYLOAD, ROOM(by_c)); }

static void second_judge_and_scan_c(void) {
    uint32_t refused = plain_second_judge_image(IMAGE);
    by_c.numbers = refused ? answered(refused) : plain_second_scan(IMAGE, PAYLOAD, ROOM(by_c));
}

static void second_judge_and_walk_c(void) {
    uint32_t refused = plain_second_judge_table(TABLE);
    by_c.numbers = refused ? answered(refused) : plain_second_walk(TABLE, PAYLOAD, ROOM(by_c));
}

const operation judging_a_table = {"judge a table", judge_table_archive, judge_table_c, NULL, 1};
const operation judging_an_image = {"judge an image", judge_image_archive, judge_image_c, NULL, 0};
const operation compact = {"compact", compact_archive, compact_c, NULL, 0};
const operation compact_seeking = {"compact, C seeking", compact_archive, compact_c_seeking, NULL, 0};
const operation compact_bgs = {"compact, order 1", compact_bgs_archive, compact_bgs_c, NULL, 0};
const operation compact_ref = {"compact, order 2", compact_ref_archive, compact_ref_c, NULL, 0};
const operation compact_toward = {"compact, order 3", compact_toward_archive, compact_toward_c, NULL, 0};
const operation compact_toward_sparing = {"order 3, C sparing", compact_toward_archive, compact_toward_c_sparing, NULL, 0};
const operation write_with_a_list = {"write", write_archive, write_c, NULL, 0};
const operation expand = {"expand", expand_archive, expand_c, NULL, 0};
const operation strings_of_a_list = {"strings", strings_archive, strings_c, NULL, 1};
const operation strings_linking = {"strings, C linking", strings_archive, strings_c_linking, NULL, 1};
const operation reduce = {"reduce, no judging", reduce_archive, reduce_c, judge_table_archive, 1};
const operation reduce_with_judging = {"reduce", reduce_archive, judge_and_reduce_c, NULL, 1};
const operation rewrite = {"rewrite, no judging", rewrite_archive, rewrite_c, judge_image_archive, 0};
const operation rewrite_with_judging = {"rewrite", rewrite_archive, judge_and_rewrite_c, NULL, 0};
const operation forward = {"forward, no judging", forward_archive, forward_c, judge_image_archive, 0};
const operation forward_with_judging = {"forward", forward_archive, judge_and_forward_c, NULL, 0};
const operation back = {"back, no judging", back_archive, back_c, judge_image_archive, 0};
const operation back_with_judging = {"back", back_archive, judge_and_back_c, NULL, 0};
const operation scan = {"scan, no judging", scan_archive, scan_c, judge_image_archive, 0};
const operation scan_with_judging = {"scan with judging", scan_archive, judge_and_scan_c, NULL, 0};
const operation judging_a_patch = {"judge a patch", judge_patch_archive, judge_patch_c, NULL, 0};
const operation apply = {"apply, no judging", apply_archive, apply_c, judge_patch_archive, 0};
const operation apply_with_judging = {"apply", apply_archive, judge_and_apply_c, NULL, 0};
const operation scan_patched = {"patched, no judging", scan_patched_archive, scan_patched_c, judge_patch_archive, 0};
const operation scan_patched_with_judging = {"patched scan", scan_patched_archive, judge_and_scan_patched_c, NULL, 0};
const operation walk = {"walk, no judging", walk_archive, walk_c, walk_nothing, 1};
const operation walk_with_judging = {"walk with judging", walk_archive, judge_and_walk_c, NULL, 1};

const operation second_judging_a_table = {"judge a table", judge_table_archive, second_judge_table_c, NULL, 1};
const operation second_judging_an_image = {"judge an image", judge_image_archive, second_judge_image_c, NULL, 0};
const operation second_compact = {"compact", compact_archive, second_compact_c, NULL, 0};
const operation second_write = {"write", write_archive, second_write_c, NULL, 0};
const operation second_expand = {"expand", expand_archive, second_expand_c, NULL, 0};
const operation second_scan = {"scan, no judging", scan_archive, second_scan_c, judge_image_archive, 0};
const operation second_scan_with_judging = {"scan with judging", scan_archive, second_judge_and_scan_c, NULL, 0};
const operation second_walk = {"walk, no judging", walk_archive, second_walk_c, walk_nothing, 1};
const operation second_walk_with_judging = {"walk with judging", walk_archive, second_judge_and_walk_c, NULL, 1};

void compare(const operation *o) {
    if (by_archive.numbers.refused) fail(o->name, by_archive.numbers.refused);
    if (memcmp(&by_archive, &by_c, sizeof by_c)) fail("the archive and C differ", by_archive.numbers.taken);
}
