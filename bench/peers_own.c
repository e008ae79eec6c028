/* The archive's scan with bound 2, and plain C over the same image and over the plain table, which count the offsets at which a word ends. Then the whole way from a word list by the archive alone, strings, compact and scan, which finds every word. */
#include <string.h>

#include "peers.h"
#include "plain.h"
#include "support.h"

static uint8_t table[LONGEST_TABLE], image[LONGEST_IMAGE], reports[6 * KAMORDAST_MOST_LABELS * 65536];
static size_t table_length, image_length;

static size_t prepare_table(const word_list *list) {
    static word_list again;
    return table_length = make_word_list(&again, list->k, table);
}

static size_t prepare_image(const word_list *list) {
    kamordast_built built = kamordast_compact(table, prepare_table(list), 2, image, sizeof image);
    if (built.refused) fail("the table is refused", built.refused);
    return image_length = built.length;
}

static void archive_scan(void) { peer_found = kamordast_scan(image, image_length, 0, peer_payload, sizeof peer_payload, reports, sizeof reports).reports; }

static void archive_judge(void) { peer_found += kamordast_judge_image(image, image_length); }

static void image_walk(void) { peer_found = plain_scan(image, image_length, 0, peer_payload, sizeof peer_payload, reports, sizeof reports).reports; }

static void table_walk(void) { peer_found = plain_walk(table, table_length, 0, peer_payload, sizeof peer_payload, reports, sizeof reports).reports; }

/* The table of the words, the word of number w with the label w + 1. */
static size_t prepare_strings(const word_list *list) {
    uint8_t strings[KAMORDAST_LONGEST_LIST];
    size_t at = 2;
    set16(strings, 0, list->number);
    for (uint32_t w = 0; w < list->number; w++) {
        set16(strings, at, w + 1);
        set16(strings, at + 2, list->lengths[w]);
        memcpy(strings + at + 4, list->words[w], list->lengths[w]);
        at += 4 + list->lengths[w];
    }
    kamordast_built built = kamordast_strings(strings, at, table, sizeof table);
    if (built.refused) fail("the word list is refused", built.refused);
    return table_length = built.length;
}

/* Its image in an order with a bound. */
static size_t prepare_listed(const word_list *list, uint32_t order, uint16_t bound) {
    kamordast_built built = kamordast_compact_in_order(table, prepare_strings(list), order, bound, image, sizeof image);
    if (built.refused) fail("the table is refused", built.refused);
    return image_length = built.length;
}

static size_t prepare_bounded(const word_list *list) { return prepare_listed(list, 0, 2); }

static size_t prepare_toward(const word_list *list) { return prepare_listed(list, 3, 0); }

/* What was reported, as matches. */
static void mark_reports(kamordast_scanned r) {
    peer_found = r.reports;
    peer_marks = 0;
    for (size_t i = 0; i < r.reports; i++) peer_marks += peer_mark(number32(reports, 6 * i) + 1u, number16(reports, 6 * i + 4) - 1u);
}

static void listed_scan(void) { mark_reports(kamordast_scan(image, image_length, 0, peer_payload, sizeof peer_payload, reports, sizeof reports)); }

static void listed_walk(void) { mark_reports(kamordast_walk(table, table_length, 0, peer_payload, sizeof peer_payload, reports, sizeof reports)); }

const peer peers_here[] = {
    {"archive, with judging", ENDS, prepare_image, archive_scan, NULL, NULL},
    {"archive, without judging", ENDS, prepare_image, archive_scan, archive_judge, NULL},
    {"C over the image", ENDS, prepare_image, image_walk, NULL, NULL},
    {"C over the plain table", ENDS, prepare_table, table_walk, NULL, NULL},
    {"list to image, D 2", ALL, prepare_bounded, listed_scan, NULL, NULL},
    {"list to image, order 3", ALL, prepare_toward, listed_scan, NULL, NULL},
    {"list to table, walked", ALL, prepare_strings, listed_walk, NULL, NULL},
    {NULL, ENDS, NULL, NULL, NULL, NULL},
};
