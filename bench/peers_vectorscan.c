/* Vectorscan, or Hyperscan, which has the same functions: the words as literals, one block. It reports every word at every place; counted are the offsets at
 * which a word ends. Its form is the database; the scratch room is not counted. */
#include <hs/hs.h>
#include <string.h>

#include "peers.h"
#include "support.h"

static hs_database_t *database;
static hs_scratch_t *scratch;
static uint8_t ended[65536 + 1];

static size_t prepare(const word_list *list) {
    const char *words[512];
    unsigned flags[512], numbers[512];
    size_t lengths[512], bytes;
    hs_compile_error_t *wrong;
    for (uint32_t w = 0; w < list->number; w++) {
        words[w] = (const char *)list->words[w];
        lengths[w] = list->lengths[w];
        flags[w] = 0;
        numbers[w] = w;
    }
    hs_free_database(database);
    if (hs_compile_lit_multi(words, flags, numbers, lengths, list->number, HS_MODE_BLOCK, NULL, &database, &wrong)) fail(wrong->message, 0);
    if (hs_alloc_scratch(database, &scratch) || hs_database_size(database, &bytes)) fail("no scratch room", 0);
    return bytes;
}

static int matched(unsigned number, unsigned long long from, unsigned long long to, unsigned flags, void *context) {
    (void)number, (void)from, (void)flags, (void)context;
    peer_found += !ended[to];
    ended[to] = 1;
    return 0;
}

static void scan(void) {
    peer_found = 0;
    memset(ended, 0, sizeof ended);
    if (hs_scan(database, (const char *)peer_payload, sizeof peer_payload, 0, scratch, matched, NULL)) fail("the scan is not done", 0);
}

const peer peers_here[] = {{"Vectorscan", ENDS, prepare, scan, NULL, NULL}, {NULL, ENDS, NULL, NULL, NULL, NULL}};
