/* The crates aho-corasick, which counts the offsets at which a word ends, or finds every word, and regex-automata, which finds matches apart. The forms of regex-automata are two
 * automata, one forward and one backward. */
#include "peers.h"

/* bench/crates/lib.rs. */
size_t crates_prepare(uint32_t kind, const uint8_t *words, const uint32_t *lengths, uint32_t number);
size_t crates_scan(const uint8_t *payload, size_t length);
size_t crates_all(const uint8_t *payload, size_t length, uint64_t *marks);

static size_t words_dfa(const word_list *list) { return crates_prepare(0, list->words[0], list->lengths, list->number); }

static size_t words_nfa(const word_list *list) { return crates_prepare(1, list->words[0], list->lengths, list->number); }

static size_t dense(const word_list *list) { return crates_prepare(2, list->words[0], list->lengths, list->number); }

static size_t sparse(const word_list *list) { return crates_prepare(3, list->words[0], list->lengths, list->number); }

static void scan_all(void) { peer_found = crates_all(peer_payload, sizeof peer_payload, &peer_marks); }

static void scan(void) { peer_found = crates_scan(peer_payload, sizeof peer_payload); }

const peer peers_here[] = {
    {"aho-corasick, DFA", ENDS, words_dfa, scan, NULL, NULL},
    {"aho-corasick, NFA", ENDS, words_nfa, scan, NULL, NULL},
    {"aho-corasick, DFA", ALL, words_dfa, scan_all, NULL, NULL},
    {"aho-corasick, NFA", ALL, words_nfa, scan_all, NULL, NULL},
    {"regex-automata, dense", APART, dense, scan, NULL, NULL},
    {"regex-automata, sparse", APART, sparse, scan, NULL, NULL},
    {NULL, ENDS, NULL, NULL, NULL, NULL},
};
