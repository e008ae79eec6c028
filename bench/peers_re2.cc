// RE2: one expression of all words, the longest match at the leftmost place, searched again behind each match. It finds matches apart, not all ends. Its form
// grows as it scans, so its bytes are what it took from the heap until after a scan.
#include <malloc.h>
#include <re2/re2.h>

#include <memory>
#include <string>

#include "peers.h"

static std::unique_ptr<RE2> words;
static size_t heap_before;

static size_t heap() {
    struct mallinfo2 now = mallinfo2();
    return now.uordblks + now.hblkhd;
}

static size_t prepare(const word_list *list) {
    std::string expression;
    words.reset();
    for (uint32_t w = 0; w < list->number; w++) {
        if (w) expression += '|';
        for (uint32_t i = 0; i < list->lengths[w]; i++) {
            char byte[8];
            snprintf(byte, sizeof byte, "\\x%02x", list->words[w][i]);
            expression += byte;
        }
    }
    RE2::Options options;
    options.set_encoding(RE2::Options::EncodingLatin1);
    options.set_longest_match(true);
    heap_before = heap();
    words.reset(new RE2(expression, options));
    return 0;
}

static void scan() {
    re2::StringPiece text(reinterpret_cast<const char *>(peer_payload), sizeof peer_payload), match;
    size_t at = 0;
    peer_found = 0;
    while (words->Match(text, at, text.size(), RE2::UNANCHORED, &match, 1)) {
        peer_found++;
        at = static_cast<size_t>(match.data() - text.data()) + match.size();
    }
}

static size_t size() { return heap() - heap_before; }

extern "C" const peer peers_here[] = {{"RE2", APART, prepare, scan, nullptr, size}, {nullptr, APART, nullptr, nullptr, nullptr, nullptr}};
