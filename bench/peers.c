/* The rows of bench/peers for the peers that are linked in: both word lists, text and near misses; and those lists cut to 64 words of which some end others, for the peers that find every word. Each peer's number of matches is held to a search that
 * tries every word at every place; the program ends with status 1 where they differ. */
#include "peers.h"

#include <stdio.h>
#include <string.h>

#include "measure.h"
#include "support.h"

enum { BYTES = 65536 };

uint8_t peer_payload[BYTES];
size_t peer_found;
uint64_t peer_marks;

/* The length of the longest word that begins at a place of the payload; 0 for none. */
static size_t longest_at(const word_list *list, size_t at) {
    size_t longest = 0;
    for (uint32_t w = 0; w < list->number; w++) {
        size_t length = list->lengths[w];
        if (length > longest && at + length <= BYTES && !memcmp(peer_payload + at, list->words[w], length)) longest = length;
    }
    return longest;
}

static size_t count_apart(const word_list *list) {
    size_t found = 0;
    for (size_t at = 0; at < BYTES;) {
        size_t length = longest_at(list, at);
        found += length > 0;
        at += length ? length : 1;
    }
    return found;
}

static size_t count_ends(const word_list *list) {
    size_t found = 0;
    for (size_t end = 1; end <= BYTES; end++) {
        int here = 0;
        for (uint32_t w = 0; w < list->number; w++) here |= list->lengths[w] <= end && !memcmp(peer_payload + end - list->lengths[w], list->words[w], list->lengths[w]);
        found += (size_t)here;
    }
    return found;
}

/* Every word at every offset at which it ends, and the sum of their marks. */
static size_t count_all(const word_list *list, uint64_t *marks) {
    size_t found = 0;
    *marks = 0;
    for (size_t end = 1; end <= BYTES; end++)
        for (uint32_t w = 0; w < list->number; w++) {
            if (list->lengths[w] > end || memcmp(peer_payload + end - list->lengths[w], list->words[w], list->lengths[w])) continue;
            *marks += peer_mark(end, w);
            found++;
        }
    return found;
}

static void row(const peer *p, const word_list *list, int near) {
    static const char *const what[] = {"ends", "apart", "all"};
    uint64_t marks = 0;
    size_t bytes = p->prepare(list), right = p->kind == ALL ? count_all(list, &marks) : p->kind == ENDS ? count_ends(list) : count_apart(list);
    peer_marks = 0;
    p->scan();
    if (peer_found != right || peer_marks != marks) {
        printf("%s found %zu for %zu\n", p->name, peer_found, right);
        fail("the matches differ", right);
    }
    if (p->size) bytes = p->size();
    action *const acts[] = {p->scan, p->less};
    double ms[2] = {0, 0};
    timed(acts, p->less ? 2 : 1, ms);
    printf("| k %-3u %-11s | %-24s | %9zu | %7.3f | %7.0f | %6zu %-5s |\n", (unsigned)list->k, near ? "near misses" : "text", p->name, bytes, ms[0] - ms[1],
           BYTES / 1e3 / (ms[0] - ms[1]), right, what[p->kind]);
}

int main(void) {
    static uint8_t table[LONGEST_TABLE];
    static word_list list;
    for (uint32_t k = 27; k <= 209; k += 182)
        for (int near = 0; near < 2; near++) {
            make_word_list(&list, k, table);
            make_payload(&list, near, peer_payload, BYTES);
            for (const peer *p = peers_here; p->name; p++)
                if (p->kind != ALL) row(p, &list, near);
            make_overlaps(&list);
            make_payload(&list, near, peer_payload, BYTES);
            for (const peer *p = peers_here; p->name; p++)
                if (p->kind == ALL) row(p, &list, near);
        }
    return 0;
}
