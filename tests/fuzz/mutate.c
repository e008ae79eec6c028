/* How inputs are altered: bytes, words, lengths and pieces of other inputs; most times with lengths and check words put right, so that the grounds behind them are reached. */
#include <string.h>

#include "../support.h"
#include "input.h"

/* A word that stands on an edge: of the limits, or one that the piece has itself. */
static uint32_t edge(const piece *p) {
    static const uint32_t edges[] = {0, 1, 2, 3, 4, 12, 15, 16, 17, 31, 32, 33, 63, 64, 65, 255, 256, 257, 511, 512, 513, 32767, 32768, 32769, 33280, 65534, 65535};
    if (p->length >= 2 && below(2)) return (number16(p->bytes, 2 * (size_t)below((uint32_t)p->length / 2)) + below(3) - 1) & 65535;
    return edges[below(sizeof edges / sizeof *edges)];
}

/* A place in a piece of at least one byte: half of the times behind the classes or before them, where the numbers stand. */
static size_t place_in(const piece *p) {
    uint32_t length = (uint32_t)p->length;
    if (length > 280 && below(8)) return below(4) ? 262 + below(length - 262) : below(12);
    return below(length);
}

/* Takes bytes out at a place, or puts some in that stand elsewhere in a piece. */
static void take_out(piece *p, size_t at, size_t count) {
    if (at + count > p->length) count = p->length - at;
    memmove(p->bytes + at, p->bytes + at + count, p->length - at - count);
    p->length -= count;
}

static void put_in(piece *p, size_t at, const piece *from, size_t there, size_t count) {
    uint8_t taken[64];
    if (count > sizeof taken) count = sizeof taken;
    if (there + count > from->length) count = from->length - there;
    if (p->length + count > MOST_BYTES) return;
    memcpy(taken, from->bytes + there, count);
    memmove(p->bytes + at + count, p->bytes + at, p->length - at);
    memcpy(p->bytes + at, taken, count);
    p->length += count;
}

/* One edit of a piece. */
static void edit(piece *p, const piece *other) {
    if (p->length == 0) {
        put_in(p, 0, other, 0, other->length);
        return;
    }
    size_t at = place_in(p), even = at & ~(size_t)1, step = (size_t)2 << below(3);
    switch (below(11)) {
    case 0: p->bytes[at] ^= (uint8_t)(1 << below(8)); break;
    case 1: p->bytes[at] = (uint8_t)below(256); break;
    case 2:
    case 3:
    case 4:
        if (even + 2 <= p->length) set16(p->bytes, even, below(2) ? edge(p) : (number16(p->bytes, even) + below(5) + 65534) & 65535);
        break;
    case 5: take_out(p, at, below(8) ? 1 + below(8) : p->length); break;
    case 6: take_out(p, even, step); break;
    case 7: put_in(p, even, p, even, step); break;
    case 8:
        if (other->length) put_in(p, even, other, below((uint32_t)other->length), step);
        break;
    case 9: /* the same places of the other */
        if (at < other->length) {
            size_t count = 1 + below(32);
            if (at + count > p->length) count = p->length - at;
            if (at + count > other->length) count = other->length - at;
            memcpy(p->bytes + at, other->bytes + at, count);
        }
        break;
    default: /* two words change places */
        if (even + 2 <= p->length) {
            size_t with = place_in(p) & ~(size_t)1;
            if (with + 2 > p->length) break;
            uint32_t word = number16(p->bytes, even);
            set16(p->bytes, even, number16(p->bytes, with));
            set16(p->bytes, with, word);
        }
    }
}

/* The trailer of an image or a patch says its length and distance back, its count of entries fits, and its check word is right. */
static void put_right(piece *p, size_t entries_at, size_t smallest) {
    if (p->length < smallest) return;
    if (p->length % 2) p->length--;
    size_t trailer = p->length - 12;
    if (!below(4)) set32(p->bytes, trailer + 4, (uint32_t)p->length);
    if (!below(4)) set32(p->bytes, trailer, 4 * number32(p->bytes, entries_at) + 12);
    mend_check_word(p->bytes, p->length);
}

/* An image's count of entries is what its length leaves for it, where that can be. */
static void count_entries(piece *p) {
    size_t front = 280 + 6 * (size_t)states_in(p->bytes);
    for (size_t s = 0; edition_in(p->bytes) == 2 && s < states_in(p->bytes) && 270 + 2 * s <= p->length; s++) front += 2 * (size_t)number16(p->bytes, 268 + 2 * s);
    if (p->length < front) return;
    p->length -= (p->length - front) % 4;
    uint32_t entries = (uint32_t)(p->length - front) / 4;
    set32(p->bytes, 8, entries);
    set32(p->bytes, p->length - 12, 4 * entries + 12);
    set32(p->bytes, p->length - 8, (uint32_t)p->length);
}

/* The same of a patch. */
static void count_patched(piece *p) {
    size_t front = 22 + 6 * (size_t)number16(p->bytes, 0);
    if (p->length < front) return;
    p->length -= (p->length - front) % 4;
    uint32_t entries = (uint32_t)(p->length - front) / 4;
    set32(p->bytes, 6, entries);
    set32(p->bytes, p->length - 12, 4 * entries + 12);
    set32(p->bytes, p->length - 8, (uint32_t)p->length);
}

static void mend(input *x, uint32_t uses) {
    piece *image = &x->of[IMAGE], *patch = &x->of[PATCH];
    if ((uses >> IMAGE & 1) && below(8)) {
        if (image->length >= 280 && below(2)) count_entries(image);
        put_right(image, 8, 280);
    }
    if ((uses >> PATCH & 1) && below(16)) {
        if (patch->length >= 22 && below(2)) count_patched(patch);
        if (patch->length >= 22 && image->length >= 2 && below(16)) memcpy(patch->bytes + (patch->length & ~(size_t)1) - 4, image->bytes + image->length - 2, 2);
        put_right(patch, 6, 22);
    }
}

void mutate(input *x, const input *other, uint32_t uses) {
    uint32_t used[KINDS], count = 0;
    for (uint32_t kind = 0; kind < KINDS; kind++)
        if (uses >> kind & 1) used[count++] = kind;
    if (!below(4)) x->state = below(4) ? below(16) : below(2) ? 65535 + below(3) : 0xffffffffu - below(2);
    if (!below(4)) x->order = below(8) ? below(5) : 255 + below(4);
    if (!below(4)) x->bound = below(2) ? below(8) : 65535 - below(2);
    if (!below(4)) x->room = below(6);
    if (!below(8)) {
        x->of[used[0]] = other->of[used[0]];
        if (uses >> PATCH & 1) x->of[PATCH] = other->of[PATCH];
    }
    for (uint32_t edits = below(5); edits > 0; edits--) {
        /* Where there is a patch the image is seldom altered: the patch is for it. */
        uint32_t kind = used[below(count)];
        if (kind == IMAGE && (uses >> PATCH & 1) && below(4)) kind = PATCH;
        edit(&x->of[kind], &other->of[kind]);
    }
    mend(x, uses);
}
