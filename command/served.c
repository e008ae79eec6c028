/* The archive has no look-up of its own. So the records and entries of an image that it has judged are followed here, and every piece of the payload goes through the archive's
 * scan too, which must come to the same state after as many hops. No line is printed before all of the payload was held to it. */
#include "served.h"

#include <stdio.h>
#include <stdlib.h>
#include <unistd.h>

#include "files.h"
#include "kamordast.h"
#include "layout.h"
#include "refusals.h"
#include "status.h"

static uint8_t image[LONGEST_IMAGE + 2], piece[LONGEST_PAYLOAD], reports[LONGEST_REPORTS];

/* For each state its default, the next state that it stores for each class or NO_STATE, and the counts of the two columns. */
static uint16_t fallback[512], stored[512][256];
static uint64_t times_served[512], times_running[512];

static void read_rows(size_t length) {
    uint32_t n = states_of(image);
    size_t record = records_at(image, length), entry = entries_at(image, length);
    for (uint32_t s = 0; s < n; s++, record += 4) {
        for (uint32_t c = 0; c < 256; c++) stored[s][c] = NO_STATE;
        fallback[s] = (uint16_t)number16(image, record);
        for (uint32_t left = number16(image, record + 2); left > 0; left--, entry += 4) stored[s][number16(image, entry)] = (uint16_t)number16(image, entry + 2);
    }
}

/* What a walk over some bytes comes to. */
typedef struct {
    uint32_t state, hops, without_hop;
} walk;

/* Takes the first bytes of the piece from a state on and counts which states served and which ran. */
static walk taken(uint32_t state, size_t bytes) {
    walk w = {state, 0, 0};
    for (size_t i = 0; i < bytes; i++) {
        uint32_t c = image[12 + piece[i]], server = w.state;
        times_running[w.state]++;
        for (; stored[server][c] == NO_STATE; server = fallback[server]) w.hops++;
        times_served[server]++;
        w.without_hop += server == w.state;
        w.state = stored[server][c];
    }
    return w;
}

/* Whether the archive's scan of the same bytes took them all and ended where the walk did, after as many hops. */
static int scan_agrees(kamordast_scanned r, size_t bytes, walk w) { return r.refused == 0 && r.taken == bytes && r.state == w.state && r.hops == w.hops; }

uint32_t hops_of(uint32_t state, uint32_t class) {
    uint32_t hops = 0;
    for (; stored[state][class] == NO_STATE; state = fallback[state]) hops++;
    return hops;
}

/* By how often a state served, the most first; states that served as often by their numbers. */
static int busier(const void *one, const void *other) {
    uint32_t a = *(const uint16_t *)one, b = *(const uint16_t *)other;
    if (times_served[a] != times_served[b]) return times_served[a] > times_served[b] ? -1 : 1;
    return a < b ? -1 : 1;
}

void by_work(uint16_t *states, uint32_t n, int sorted) {
    for (uint32_t s = 0; s < n; s++) states[s] = (uint16_t)s;
    if (sorted) qsort(states, n, sizeof *states, busier);
}

static void print_lines(uint32_t n, int sorted) {
    uint16_t states[512];
    by_work(states, n, sorted);
    for (uint32_t i = 0; i < n; i++) printf("%u %llu %llu\n", (unsigned)states[i], (unsigned long long)times_served[states[i]], (unsigned long long)times_running[states[i]]);
}

/* Says the share on standard error: the lines stay three numbers each, and where only the first of them are taken the share is still seen. It is cut behind a tenth of a
 * per cent, so that 100.0 % is all of them. */
static void say_share(const char *payload, uint64_t without_hop, uint64_t bytes) {
    fprintf(stderr, "%s: %llu of %llu bytes needed no hop", payload, (unsigned long long)without_hop, (unsigned long long)bytes);
    if (bytes > 0) fprintf(stderr, ", %llu.%llu %%", (unsigned long long)(100 * without_hop / bytes), (unsigned long long)(1000 * without_hop / bytes % 10));
    fprintf(stderr, "\n");
}

int count_rows(const char *image_name, const char *payload_name, row_counts *counts, reported *tell) {
    size_t length = read_file(image_name, image, LONGEST_IMAGE), bytes;
    uint32_t refused = kamordast_judge_image(image, length), state = number16(image, 4);
    if (refused) return refuse(image_name, refused);
    read_rows(length);
    *counts = (row_counts){image, length, times_served, times_running, 0, 0, 0, 0};
    int file = payload_name ? open_file(payload_name) : -1;
    while (payload_name && (bytes = read_piece(file, payload_name, piece, sizeof piece)) > 0) {
        walk w = taken(state, bytes);
        kamordast_scanned r = kamordast_scan(image, length, state, piece, bytes, reports, sizeof reports);
        if (!scan_agrees(r, bytes, w)) {
            fprintf(stderr, "kamordast: %s: the count is not what the scan answers, within the %zu bytes behind byte %llu of %s\n", image_name, bytes,
                    (unsigned long long)counts->bytes, payload_name);
            fprintf(stderr, "  what to do: keep both files and call the engineers; no line was printed\n");
            return APART;
        }
        for (size_t i = 0; tell && i < r.reports; i++) tell(counts->bytes + number32(reports, 6 * i), number16(reports, 6 * i + 4));
        state = w.state;
        counts->without_hop += w.without_hop;
        counts->hops += w.hops;
        counts->reports += r.reports;
        counts->bytes += bytes;
    }
    if (payload_name) close(file);
    return DONE;
}

int served(const char *image_name, const char *payload_name, int sorted) {
    row_counts counts;
    int status = count_rows(image_name, payload_name, &counts, NULL);
    if (status != DONE) return status;
    /* All lines go out in one write: a reader who takes the first of them only does not end the run before the share is said. */
    static char lines[512 * 48];
    setvbuf(stdout, lines, _IOFBF, sizeof lines);
    print_lines(states_of(image), sorted);
    fflush(stdout);
    say_share(payload_name, counts.without_hop, counts.bytes);
    return DONE;
}
