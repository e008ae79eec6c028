/* A peer: another way to find the words of a list in a payload. */
#ifndef PEERS_H
#define PEERS_H

#include <stddef.h>
#include <stdint.h>

#include "word_list.h"

/* What a peer counts. ENDS: the offsets at which some word ends. APART: the matches from left to right, the longest at each place, none overlapping. ALL: every word at every offset at which it ends; such a peer sums the marks of its matches, too. */
typedef enum { ENDS, APART, ALL } counts;

typedef struct {
    const char *name;
    counts kind;
    size_t (*prepare)(const word_list *list); /* makes its form of the words; answers the form's bytes, 0 for not known before a scan */
    void (*scan)(void);                       /* scans the payload and sets found */
    void (*less)(void);                       /* what is to be taken off its time, or NULL */
    size_t (*size)(void);                     /* the form's bytes after a scan, or NULL */
} peer;

#ifdef __cplusplus
extern "C" {
#endif

extern uint8_t peer_payload[65536];
extern size_t peer_found;
extern uint64_t peer_marks;

/* The mark of the word of this number, from 0, that ends before this offset. */
static inline uint64_t peer_mark(uint64_t end, uint64_t word) { return (end * 512 + word + 1) * 0x9E3779B97F4A7C15u; }

/* The peers that a program has; the last has no name. */
extern const peer peers_here[];

#ifdef __cplusplus
}
#endif

#endif
