/* Each operation of the archive on the pieces at hand, held to the reading of the paper. The archive gets each slice right before a page that may not be touched, or right behind one; the reading gets a copy of its own, which the
 * address checker watches. What was lent to be read must be as it was, and of the room no byte may change behind the result, or none on a refusal. */
#include <stdlib.h>
#include <string.h>

#include "../reference/reference.h"
#include "../support.h"
#include "coverage.h"
#include "input.h"
#include "kamordast.h"
#include "word_list.h"

enum { LONGEST_ROOM = KAMORDAST_LARGEST_IMAGE + 8, FILL = 0xa5 };

static const uint8_t *lent[KINDS];
static uint8_t *own[KINDS];
static uint8_t expected[LONGEST_ROOM];
static uint64_t turn;

/* Lays the pieces out for the archive and for the reading. */
static void lay_out(const input *x, uint32_t uses) {
    static guarded pages[KINDS];
    turn++;
    for (uint32_t kind = 0; kind < KINDS; kind++) {
        if (!(uses >> kind & 1)) continue;
        const piece *p = &x->of[kind];
        if (!pages[kind].pages) pages[kind] = guard(MOST_BYTES);
        uint8_t *place = at_either(&pages[kind], p->length, turn);
        memcpy(place, p->bytes, p->length);
        lent[kind] = place;
        own[kind] = malloc(p->length ? p->length : 1);
        memcpy(own[kind], p->bytes, p->length);
    }
}

/* What was lent to be read is as it was. */
static void take_back(const input *x, uint32_t uses) {
    for (uint32_t kind = 0; kind < KINDS; kind++) {
        if (!(uses >> kind & 1)) continue;
        if (memcmp(lent[kind], x->of[kind].bytes, x->of[kind].length)) found("a byte that was lent to be read has changed");
        free(own[kind]);
    }
}

/* A room for the archive, of so many bytes, all the same. */
static uint8_t *make_room(size_t length) {
    static guarded pages;
    if (!pages.pages) pages = guard(LONGEST_ROOM);
    return memset(at_either(&pages, length, turn), FILL, length);
}

/* How long the room is for a result of this length: enough, just enough, a byte short, none, or any. */
static size_t room_for(const input *x, size_t length) {
    switch (x->room) {
    case 0: return length;
    case 1: return length ? length - 1 : 0;
    case 2: return 0;
    case 3: return length + 1;
    case 4: return below((uint32_t)length + 8);
    default: return length + 7;
    }
}

/* The room has the result at its front and behind it what stood there. */
static void hold_room(const uint8_t *room, size_t length, const uint8_t *result, size_t result_length) {
    if (memcmp(room, result, result_length)) found("the result has other bytes than the reading's");
    for (size_t i = result_length; i < length; i++)
        if (room[i] != FILL) found("a byte of the room behind the result has changed");
}

typedef kamordast_built archive_builds(const input *x, uint8_t *room, size_t length);
typedef reference_built reading_builds(const input *x, uint8_t *room, size_t length);

static void hold_built(const input *x, uint32_t uses, archive_builds *builds, reading_builds *reads) {
    lay_out(x, uses);
    reference_built whole = reads(x, expected, sizeof expected);
    size_t length = room_for(x, whole.length);
    reference_built wanted = whole.refused || length >= whole.length ? whole : reads(x, expected, length);
    uint8_t *room = make_room(length);
    kamordast_built got = builds(x, room, length);
    if (got.refused != wanted.refused) found("the number is not the reading's");
    if (got.length != wanted.length) found("the length is not the reading's");
    hold_room(room, length, expected, got.length);
    coverage_answer(x->operation, got.refused, got.length);
    take_back(x, uses);
}

typedef kamordast_scanned archive_runs(const input *x, uint8_t *room, size_t length);
typedef reference_scanned reading_runs(const input *x, uint8_t *room, size_t length);

static void hold_scanned(const input *x, uint32_t uses, archive_runs *runs, reading_runs *reads) {
    lay_out(x, uses);
    size_t length = room_for(x, 6 * (size_t)reads(x, expected, sizeof expected).reports);
    uint8_t *room = make_room(length);
    reference_scanned wanted = reads(x, expected, length);
    kamordast_scanned got = runs(x, room, length);
    if (got.refused != wanted.refused) found("the number is not the reading's");
    if (got.taken != wanted.taken || got.state != wanted.state || got.reports != wanted.reports || got.hops != wanted.hops) found("the answer is not the reading's");
    hold_room(room, length, expected, 6 * (size_t)got.reports);
    coverage_answer(x->operation, got.refused, got.reports + 64 * got.hops);
    take_back(x, uses);
}

static void hold_number(const input *x, uint32_t got, uint32_t wanted) {
    if (got != wanted) found("the number is not the reading's");
    coverage_answer(x->operation, got, 0);
}

#define BIT(kind) (1u << (kind))
#define LENT(kind) lent[kind], x->of[kind].length
#define OWN(kind) own[kind], x->of[kind].length

/* An operation that builds or runs: what it uses, the archive's call and the reading's. */
#define HELD(how, result, name, uses, archive, reading) \
    static kamordast_##result archive_##name(const input *x, uint8_t *room, size_t length) { return archive; } \
    static reference_##result reading_##name(const input *x, uint8_t *room, size_t length) { return reading; } \
    static void run_##name(const input *x) { how(x, uses, archive_##name, reading_##name); }
#define BUILT(name, uses, archive, reading) HELD(hold_built, built, name, uses, archive, reading)
#define SCANNED(name, uses, archive, reading) HELD(hold_scanned, scanned, name, uses, archive, reading)

BUILT(compact, BIT(TABLE), kamordast_compact(LENT(TABLE), (uint16_t)x->bound, room, length), reference_compact(OWN(TABLE), 0, (uint16_t)x->bound, room, length))
BUILT(in_order, BIT(TABLE), kamordast_compact_in_order(LENT(TABLE), x->order, (uint16_t)x->bound, room, length), reference_compact(OWN(TABLE), x->order, (uint16_t)x->bound, room, length))
BUILT(write, BIT(TABLE) | BIT(DEFAULTS), kamordast_write(LENT(TABLE), LENT(DEFAULTS), room, length), reference_write(OWN(TABLE), OWN(DEFAULTS), room, length))
BUILT(expand, BIT(IMAGE), kamordast_expand(LENT(IMAGE), room, length), reference_expand(OWN(IMAGE), room, length))
BUILT(rewrite, BIT(IMAGE), kamordast_rewrite(LENT(IMAGE), room, length), reference_rewrite(OWN(IMAGE), room, length))
BUILT(forward, BIT(IMAGE), kamordast_forward(LENT(IMAGE), room, length), reference_forward(OWN(IMAGE), room, length))
BUILT(back, BIT(IMAGE), kamordast_back(LENT(IMAGE), room, length), reference_back(OWN(IMAGE), room, length))
BUILT(strings, BIT(LIST), kamordast_strings(LENT(LIST), room, length), reference_strings(OWN(LIST), room, length))
BUILT(reduce, BIT(TABLE), kamordast_reduce(LENT(TABLE), room, length), reference_reduce(OWN(TABLE), room, length))
BUILT(apply, BIT(IMAGE) | BIT(PATCH), kamordast_apply(LENT(IMAGE), LENT(PATCH), room, length), reference_apply(OWN(IMAGE), OWN(PATCH), room, length))
SCANNED(scan, BIT(IMAGE) | BIT(PAYLOAD), kamordast_scan(LENT(IMAGE), x->state, LENT(PAYLOAD), room, length), reference_scan(OWN(IMAGE), x->state, OWN(PAYLOAD), room, length))
SCANNED(walk, BIT(TABLE) | BIT(PAYLOAD), kamordast_walk(LENT(TABLE), x->state, LENT(PAYLOAD), room, length), reference_walk(OWN(TABLE), x->state, OWN(PAYLOAD), room, length))
SCANNED(scan_patched, BIT(IMAGE) | BIT(PATCH) | BIT(PAYLOAD), kamordast_scan_patched(LENT(IMAGE), LENT(PATCH), x->state, LENT(PAYLOAD), room, length),
        reference_scan_patched(OWN(IMAGE), OWN(PATCH), x->state, OWN(PAYLOAD), room, length))

static void run_judge_table(const input *x) {
    lay_out(x, BIT(TABLE));
    hold_number(x, kamordast_judge_table(LENT(TABLE)), reference_judge_table(OWN(TABLE)));
    take_back(x, BIT(TABLE));
}

static void run_judge_image(const input *x) {
    lay_out(x, BIT(IMAGE));
    hold_number(x, kamordast_judge_image(LENT(IMAGE)), reference_judge_image(OWN(IMAGE)));
    take_back(x, BIT(IMAGE));
}

static void run_judge_patch(const input *x) {
    lay_out(x, BIT(IMAGE) | BIT(PATCH));
    hold_number(x, kamordast_judge_patch(LENT(IMAGE), LENT(PATCH)), reference_judge_patch(OWN(IMAGE), OWN(PATCH)));
    take_back(x, BIT(IMAGE) | BIT(PATCH));
}

/* A word list as text: the list that comes of it fits its room, has the shape of one or no string, and a line is named for each number that has one. */
static void run_text(const input *x) {
    const char *fault = NULL;
    uint32_t line = 0;
    lay_out(x, BIT(TEXT));
    uint8_t *list = malloc(KAMORDAST_LONGEST_LIST);
    size_t length = list_of_text(OWN(TEXT), list, &line, &fault);
    if (line) {
        if (length || !fault) found("a text with a fault has a list, or no sentence");
        coverage_answer(x->operation, 26, line);
    } else {
        uint32_t refused = reference_strings(list, length, expected, sizeof expected).refused;
        if (refused == 26 && x->of[TEXT].length) found("the list of a text has not the shape of one");
        uint32_t named = refused_line(list, refused);
        if ((named != 0) != (refused == 27 || refused == 19 || refused == 28) || named > number16(list, 0)) found("a line is named without a fault, or none with one");
        coverage_answer(x->operation, refused, named);
    }
    free(list);
    take_back(x, BIT(TEXT));
}

const operation operations[] = {
    {"judge_table", BIT(TABLE), run_judge_table},
    {"judge_image", BIT(IMAGE), run_judge_image},
    {"compact", BIT(TABLE), run_compact},
    {"compact_in_order", BIT(TABLE), run_in_order},
    {"write", BIT(TABLE) | BIT(DEFAULTS), run_write},
    {"expand", BIT(IMAGE), run_expand},
    {"rewrite", BIT(IMAGE), run_rewrite},
    {"forward", BIT(IMAGE), run_forward},
    {"back", BIT(IMAGE), run_back},
    {"strings", BIT(LIST), run_strings},
    {"reduce", BIT(TABLE), run_reduce},
    {"scan", BIT(IMAGE) | BIT(PAYLOAD), run_scan},
    {"walk", BIT(TABLE) | BIT(PAYLOAD), run_walk},
    {"judge_patch", BIT(IMAGE) | BIT(PATCH), run_judge_patch},
    {"apply", BIT(IMAGE) | BIT(PATCH), run_apply},
    {"scan_patched", BIT(IMAGE) | BIT(PATCH) | BIT(PAYLOAD), run_scan_patched},
    {"text", BIT(TEXT), run_text},
    {"command", BIT(TABLE) | BIT(IMAGE) | BIT(PATCH) | BIT(DEFAULTS) | BIT(LIST) | BIT(TEXT) | BIT(PAYLOAD), run_command},
};
const uint32_t operation_count = sizeof operations / sizeof *operations;
