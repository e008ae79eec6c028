#define _DEFAULT_SOURCE
#include "support.h"

#include <stdio.h>
#include <stdlib.h>
#include <string.h>
#include <sys/mman.h>
#include <unistd.h>

static uint64_t source;

void seed(uint64_t from) { source = from * 2 + 1; }

uint32_t below(uint32_t bound) {
    source ^= source << 13;
    source ^= source >> 7;
    source ^= source << 17;
    return (uint32_t)((source >> 16) % bound);
}

uint32_t number16(const uint8_t *b, size_t at) { return b[at] + 256u * b[at + 1]; }
uint32_t number32(const uint8_t *b, size_t at) { return number16(b, at) + 65536u * number16(b, at + 2); }

void set16(uint8_t *b, size_t at, uint32_t x) {
    b[at] = x & 255;
    b[at + 1] = x >> 8 & 255;
}

void set32(uint8_t *b, size_t at, uint32_t x) {
    set16(b, at, x & 65535);
    set16(b, at + 2, x >> 16);
}

uint32_t edition_in(const uint8_t *b) { return number16(b, 0) < 32768 ? 1 : 2; }
uint32_t states_in(const uint8_t *b) { return number16(b, 0) % 32768; }

/* How many labels stand behind counts at a place. */
static size_t labels_in(const uint8_t *b, size_t counts) {
    size_t sum = 0;
    for (uint32_t s = 0; edition_in(b) == 2 && s < states_in(b); s++) sum += number16(b, counts + 2 * (size_t)s);
    return sum;
}

size_t rows_in(const uint8_t *table) { return 262 + 2 * (size_t)states_in(table) + 2 * labels_in(table, 262); }
size_t records_in(const uint8_t *image) { return 268 + 2 * (size_t)states_in(image) + 2 * labels_in(image, 268); }

void mend_check_word(uint8_t *image, size_t length) {
    uint64_t sum = 0;
    for (size_t i = 0; i + 2 < length; i += 2) sum += number16(image, i);
    while (sum > 65535) sum = (sum & 65535) + (sum >> 16);
    set16(image, length - 2, 65535 - (uint32_t)sum);
}

size_t make_table(uint8_t *table, uint32_t n, uint32_t k, uint32_t alike) {
    uint16_t usual[256];
    set16(table, 0, n);
    set16(table, 2, k);
    set16(table, 4, below(n));
    for (uint32_t x = 0; x < 256; x++) table[6 + x] = (uint8_t)below(k);
    /* Each class is some byte's: the classes stand at k bytes in a row, from a byte at random. */
    uint32_t first = below(256);
    for (uint32_t c = 0; c < k; c++) table[6 + (first + c) % 256] = (uint8_t)c;
    for (uint32_t s = 0; s < n; s++) set16(table, 262 + 2 * s, below(3) ? 0 : 1 + below(65535));
    for (uint32_t c = 0; c < k; c++) usual[c] = (uint16_t)below(n);
    size_t at = 262 + 2 * (size_t)n;
    for (uint32_t s = 0; s < n; s++)
        for (uint32_t c = 0; c < k; c++, at += 2) set16(table, at, below(256) < alike ? usual[c] : below(n));
    return at;
}

/* The states in an order at random. */
static void shuffle(uint32_t *order, uint32_t n) {
    for (uint32_t s = 0; s < n; s++) order[s] = s;
    for (uint32_t s = n; s > 1; s--) {
        uint32_t other = below(s), kept = order[s - 1];
        order[s - 1] = order[other];
        order[other] = kept;
    }
}

size_t make_levels(uint8_t *table, uint32_t n, uint32_t k, uint32_t alike, uint32_t reached, uint32_t wide) {
    uint32_t order[512], on = k - 1, seen = 0;
    size_t length = make_table(table, n, k, 0), rows = 262 + 2 * (size_t)n;
    shuffle(order, n);
    set16(table, 4, order[0]);
    /* The class that leads on is one byte's. */
    for (uint32_t x = 0; x < 256 && k > 1; x++)
        if (table[6 + x] == on && seen++) table[6 + x] = (uint8_t)below(on);
    for (uint32_t i = 0; i < n; i++) {
        /* Behind state i of the order the next level begins: a row leads to the states before that place, and by one class behind it. */
        uint32_t behind = 1 + (i + wide - 1) / wide * wide, ahead = behind + below(wide), most = i >= reached ? n : behind < reached ? behind : reached;
        size_t row = rows + 2 * (size_t)order[i] * k, like = rows + 2 * (size_t)order[i ? below(i) : 0] * k;
        for (uint32_t c = 0; c < k; c++) set16(table, row + 2 * c, i && below(256) < alike ? number16(table, like + 2 * c) : order[below(most)]);
        if (ahead < reached) set16(table, row + 2 * on, order[ahead]);
    }
    return length;
}

size_t make_stairs(uint8_t *table) {
    const uint32_t n = 512, k = 12;
    size_t at = 262;
    set16(table, 0, n);
    set16(table, 2, k);
    set16(table, 4, 0);
    for (uint32_t x = 0; x < 256; x++) table[6 + x] = (uint8_t)(x < k ? x : k - 1);
    for (uint32_t s = 0; s < n; s++, at += 2) set16(table, at, 0);
    for (uint32_t s = 0; s < n; s++)
        for (uint32_t c = 0; c < k; c++, at += 2) {
            /* Ten classes lead to the last state, this one included, whose number ends in the class less one: a state differs from the one before it in one of them. */
            uint32_t back = (s + 11 - c) % 10;
            set16(table, at, c == 0 ? (s + 1 < n ? s + 1 : s) : c == k - 1 ? 1 : back <= s ? s - back : 0);
        }
    return at;
}

/* How many labels a state has, at most `most`: few, mostly. */
static uint32_t some_count(uint32_t most) {
    uint32_t count = below(6) ? below(3) : below(24) ? below(17) : 16;
    return count < most ? count : most;
}

/* A list of labels, rising: from 1 on or far up, in small steps or large ones, so that some labels stand in several states and the last may be 65535. */
static void make_list(uint8_t *list, uint32_t count) {
    uint32_t label = below(3) ? below(8) : below(65536 - 16), step = below(2) ? 1 : 1 + below(4000);
    for (uint32_t i = 0; i < count; i++) {
        uint32_t most = 65535 - (count - 1 - i), next = label + 1 + below(step);
        label = next < most ? next : most;
        set16(list, 2 * (size_t)i, label);
    }
}

size_t make_second(uint8_t *table, size_t length, uint32_t most) {
    uint32_t n = states_in(table), full = most == 16 && below(12) == 0;
    size_t rows = 262 + 2 * (size_t)n, behind = 0, at = rows;
    for (uint32_t s = 0; s < n; s++) {
        uint32_t count = full ? 16 : some_count(most);
        set16(table, 262 + 2 * (size_t)s, count);
        behind += 2 * (size_t)count;
    }
    memmove(table + rows + behind, table + rows, length - rows);
    for (uint32_t s = 0; s < n; s++) {
        uint32_t count = number16(table, 262 + 2 * (size_t)s);
        make_list(table + at, count);
        at += 2 * (size_t)count;
    }
    set16(table, 0, 32768 + n);
    return length + behind;
}

size_t either_edition(uint8_t *table, size_t length) {
    if (below(2)) return length;
    return make_second(table, length, below(12) ? 16 : below(3));
}

void make_defaults(uint8_t *defaults, uint32_t n, uint32_t often) {
    /* States in an order at random; each may fall to one before it. */
    uint32_t order[512];
    shuffle(order, n);
    for (uint32_t i = 0; i < n; i++) set16(defaults, 2 * order[i], i > 0 && below(256) < often ? order[below(8) ? below(i) : i - 1] : 65535);
}

uint32_t leave_worthy(uint8_t *defaults, const uint8_t *table) {
    uint32_t k = number16(table, 2), gone = 0;
    size_t rows = rows_in(table);
    for (uint32_t s = 0; s < states_in(table); s++) {
        uint32_t to = number16(defaults, 2 * (size_t)s), shared = 0;
        for (uint32_t c = 0; to != 65535 && c < k; c++) shared += number16(table, rows + 2 * ((size_t)s * k + c)) == number16(table, rows + 2 * ((size_t)to * k + c));
        if (to == 65535 || shared >= 2) continue;
        set16(defaults, 2 * (size_t)s, 65535);
        gone++;
    }
    return gone;
}

uint32_t unworthy_in(const uint8_t *image) {
    uint32_t found = 0;
    size_t records = records_in(image);
    for (uint32_t s = 0; s < states_in(image); s++)
        found += number16(image, records + 4 * (size_t)s) != 65535 && number16(image, records + 4 * (size_t)s + 2) + 2 > number16(image, 2);
    return found;
}

void damage_image(uint8_t *b, const uint8_t *image, size_t length) {
    uint32_t n = states_in(image), k = number16(image, 2), m = number32(image, 8);
    size_t records = length - 12 - 4 * (size_t)m - 4 * (size_t)n, entries = records + 4 * (size_t)n, labels = (records - 268) / 2;
    switch (below(15)) {
    case 0: set16(b, 2 * below(4), below(2) ? below(n + 2) : below(65536)); break;
    case 1: set32(b, 8, below(2) ? m + below(3) - 1 : below(1u << 31) * 2u); break;
    case 2: set32(b, length - 4 * (2 + below(2)), (uint32_t)length + below(5) - 2); break;
    case 3: b[12 + below(256)] = (uint8_t)below(k + 1 < 256 ? k + 1 : 256); break;
    case 4: set16(b, records + 4 * below(n), below(3) ? below(n + 1) : 65535); break;
    case 5: set16(b, records + 4 * below(n) + 2, below(k + 2)); break;
    case 6: set16(b, entries + 4 * below(m), below(k + 1)); break;
    case 7: set16(b, entries + 4 * below(m) + 2, below(n + 1)); break;
    case 8: set16(b, 6, number16(b, 6) + below(3) - 1); break;
    case 9: set16(b, length - 4, number16(b, length - 4) + below(3) - 1); break;
    case 10: {
        /* Two counts moved against each other keep the sum. */
        size_t from = records + 4 * below(n) + 2, to = records + 4 * below(n) + 2;
        set16(b, from, number16(b, from) - 1);
        set16(b, to, number16(b, to) + 1);
        break;
    }
    case 11: set16(b, 0, number16(image, 0) + (below(2) ? 32768 : below(3) - 1)); break; /* the other edition, or a state more or less */
    case 12: set16(b, 268 + 2 * below(n), below(3) ? below(18) : below(65536)); break;
    case 13: {
        /* A label, or in edition 1 and among the counts a word: 0, another, or the one before it. */
        size_t at = 268 + 2 * (size_t)below((uint32_t)labels);
        set16(b, at, below(3) == 0 ? 0 : below(2) ? below(65536) : number16(b, at - 2));
        break;
    }
    default: b[below((uint32_t)length)] ^= (uint8_t)(1 << below(8));
    }
    if (below(6)) mend_check_word(b, length);
}

guarded guard(size_t most) {
    size_t page = (size_t)sysconf(_SC_PAGESIZE), size = (most + page - 1) / page * page;
    uint8_t *pages = mmap(NULL, size + 2 * page, PROT_NONE, MAP_PRIVATE | MAP_ANONYMOUS, -1, 0);
    if (pages == MAP_FAILED || mprotect(pages + page, size ? size : page, PROT_READ | PROT_WRITE)) {
        perror("guard");
        exit(3);
    }
    guarded g = {pages + page, size};
    return g;
}

uint8_t *at_end(const guarded *g, size_t length) { return g->pages + g->size - length; }
uint8_t *at_start(const guarded *g) { return g->pages; }
uint8_t *at_either(const guarded *g, size_t length, uint64_t turn) { return turn / 5 % 2 ? at_start(g) : at_end(g, length); }

void fail(const char *sentence, uint64_t number) {
    printf("failed: %s (case %llu)\n", sentence, (unsigned long long)number);
    exit(1);
}
