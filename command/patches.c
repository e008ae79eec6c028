#include "patches.h"

#include <stdio.h>
#include <string.h>

#include "refusals.h"
#include "reports.h"
#include "status.h"
#include "store.h"

/* What was read, or made. A file that is longer than any image or patch that is accepted is read a byte too far, and so refused. */
static uint8_t image[LONGEST_IMAGE + 2], target[LONGEST_IMAGE + 2], patch[LONGEST_PATCH + 2], payload[LONGEST_PAYLOAD + 2];
static size_t image_length, target_length, patch_length;

/* Reads an image; where it is refused says so. Answers the status. */
static int read_image(const char *name, uint8_t *bytes, size_t *length) {
    *length = read_file(name, bytes, LONGEST_IMAGE);
    uint32_t refused = kamordast_judge_image(bytes, *length);
    return refused ? refuse(name, refused) : DONE;
}

/* Refuses a patch. Numbers that an image may have too are of the image as it would be with the patch. */
static int refuse_patch(const char *name, uint32_t number) {
    int status = refuse(name, number);
    if (number >= 8 && number <= 13) fprintf(stderr, "  in a patch: so would be the image that it makes; make the patch anew with diff, from the image that the board has\n");
    return status;
}

/* Reads the image and then the patch, each refused by its own name. Answers the status. */
static int read_both(const char *image_name, const char *patch_name) {
    int status = read_image(image_name, image, &image_length);
    if (status != DONE) return status;
    patch_length = read_file(patch_name, patch, LONGEST_PATCH);
    uint32_t refused = kamordast_judge_patch(image, image_length, patch, patch_length);
    return refused ? refuse_patch(patch_name, refused) : DONE;
}

int judge_patch(const char *image_name, const char *patch_name) {
    int status = read_both(image_name, patch_name);
    if (status != DONE) return status;
    kamordast_built built = kamordast_apply(image, image_length, patch, patch_length, room, sizeof room);
    if (built.refused) return refuse_patch(patch_name, built.refused);
    printf("%s: a patch for %s, of %u states and %u entries, %zu bytes; with it depth %u, worst %u, %u entries, %u bytes\n", patch_name, image_name, (unsigned)number16(patch, 0), (unsigned)number32(patch, 6), patch_length,
           (unsigned)number16(room, 6), (unsigned)number16(room, built.length - 4), (unsigned)number32(room, 8), (unsigned)built.length);
    return DONE;
}

int apply(const char *image_name, const char *patch_name, const char *to) {
    int status = read_both(image_name, patch_name);
    if (status != DONE) return status;
    return store(patch_name, kamordast_apply(image, image_length, patch, patch_length, room, sizeof room), to, is_image);
}

int scan_patched(const char *image_name, const char *patch_name, const char *bytes, long state) {
    int status = read_both(image_name, patch_name);
    if (status != DONE) return status;
    size_t payload_length = read_file(bytes, payload, LONGEST_PAYLOAD);
    char state_word[24];
    snprintf(state_word, sizeof state_word, "%ld", state);
    kamordast_scanned r = kamordast_scan_patched(image, image_length, patch, patch_length, state < 0 ? number16(image, 4) : (uint32_t)state, payload, payload_length, room, LONGEST_REPORTS);
    return say_reports(r, r.refused == 15 ? bytes : state_word);
}

/* Where the entries of each state of an accepted image begin, and behind them the end. */
static void find_entries(const uint8_t *bytes, size_t length, size_t *at) {
    uint32_t n = states_of(bytes);
    at[0] = entries_at(bytes, length);
    for (uint32_t s = 0; s < n; s++) at[s + 1] = at[s] + 4 * (size_t)number16(bytes, records_at(bytes, length) + 4 * (size_t)s + 2);
}

/* The states that have another record or other entries in the target, rising; answers how many. The entries of each state of the target are found beside. */
static uint32_t states_apart(uint16_t *apart, size_t *theirs) {
    uint32_t n = states_of(image), found = 0;
    size_t own[513], records = records_at(image, image_length), other_records = records_at(target, target_length);
    find_entries(image, image_length, own);
    find_entries(target, target_length, theirs);
    for (uint32_t s = 0; s < n; s++)
        if (memcmp(image + records + 4 * s, target + other_records + 4 * s, 4) || memcmp(image + own[s], target + theirs[s], own[s + 1] - own[s])) apart[found++] = (uint16_t)s;
    return found;
}

/* What a patch cannot change is another in the target: says what. NULL where it is the same. */
static const char *unlike(void) {
    if (edition_of(image) != edition_of(target)) return "it is of the other edition";
    if (states_of(image) != states_of(target)) return "it has another number of states";
    if (number16(image, 2) != number16(target, 2)) return "it has another number of classes";
    if (number16(image, 4) != number16(target, 4)) return "it has another start state";
    if (memcmp(image + 12, target + 12, 256)) return "it has other classes";
    size_t labels = records_at(image, image_length);
    if (labels != records_at(target, target_length) || memcmp(image + IMAGE_LABELS, target + IMAGE_LABELS, labels - IMAGE_LABELS)) return "it has other labels";
    return NULL;
}

/* Says that there is no patch, why, and what to do; answers the status. */
static int no_patch(const char *image_name, const char *target_name, const char *why, const char *advice) {
    fprintf(stderr, "kamordast: %s: no patch makes it of %s: %s\n  what to do: %s\n", target_name, image_name, why, advice);
    return REFUSED;
}

/* Puts the patch that lists these states as they stand in the target. */
static void make_patch(const uint16_t *apart, uint32_t p, const size_t *entries) {
    uint8_t *number = patch + 10, *record = number + 2 * (size_t)p, *entry = record + 4 * (size_t)p;
    for (uint32_t i = 0; i < p; i++, number += 2, record += 4) {
        size_t own = entries[apart[i] + 1] - entries[apart[i]];
        put16(number, apart[i]);
        memcpy(record, target + records_at(target, target_length) + 4 * (size_t)apart[i], 4);
        memcpy(entry, target + entries[apart[i]], own);
        entry += own;
    }
    uint32_t q = (uint32_t)(entry - record) / 4;
    patch_length = (size_t)(entry - patch) + 12;
    put16(patch, p);
    memcpy(patch + 2, target + 6, 2);                 /* depth */
    memcpy(patch + 4, target + target_length - 4, 2); /* worst */
    put32(patch + 6, q);
    put32(entry, 4 * q + 12);
    put32(entry + 4, (uint32_t)patch_length);
    memcpy(entry + 8, image + image_length - 2, 2);
    put16(entry + 10, check_word(patch, patch_length - 2));
}

/* Whether bytes are a patch that makes the target of the image. */
static int makes_target(const uint8_t *bytes, size_t length) {
    kamordast_built built = kamordast_apply(image, image_length, bytes, length, room, sizeof room);
    return !built.refused && built.length == target_length && !memcmp(room, target, target_length);
}

int diff(const char *image_name, const char *target_name, const char *patch_name) {
    uint16_t apart[512];
    size_t entries[513];
    int status = read_image(image_name, image, &image_length);
    if (status == DONE) status = read_image(target_name, target, &target_length);
    if (status != DONE) return status;
    const char *why = unlike();
    if (why) return no_patch(image_name, target_name, why, edition_of(image) == edition_of(target) ? "send the whole image" : "move one of them with forward or back, where that can be, or send the whole image");
    uint32_t p = states_apart(apart, entries);
    if (p == 0) return no_patch(image_name, target_name, "they are the same, byte for byte", "nothing: there is nothing to send");
    if (p > KAMORDAST_MOST_PATCHED) {
        char many[80];
        snprintf(many, sizeof many, "%u states are others, and a patch lists %u at most", (unsigned)p, (unsigned)KAMORDAST_MOST_PATCHED);
        return no_patch(image_name, target_name, many, "send the whole image");
    }
    make_patch(apart, p, entries);
    if (!makes_target(patch, patch_length)) {
        fprintf(stderr, "kamordast: %s: the patch that was made does not make %s of %s, and was not written\n  what to do: keep both images and call the engineers\n", patch_name, target_name, image_name);
        return APART;
    }
    write_file(patch_name, patch, patch_length, makes_target);
    printf("%s: %zu bytes, read back and accepted\n", patch_name, patch_length);
    printf("%u of %u states are others; the patch saves %zu of the %zu bytes of %s\n", (unsigned)p, (unsigned)states_of(image), target_length - patch_length, target_length, target_name);
    return DONE;
}
