/* Reduction of an accepted table in C. Blocks are named by their smallest reached state. They begin with equal labels, and round by round a block is split by the blocks that its states go to, until a round splits none: a state is compared with
 * the smallest of its block. Where they part, and for labels, the states that name a block are kept in the order in which states are compared, and a state's place among them is found by halving, so that not all pairs are compared. */
#include "plain.h"

enum { STATES = 512, GONE = 65535 };

/* The table's parts, and where the labels of each state are. */
typedef struct {
    size_t n, k;
    const uint8_t *rows, *label[STATES];
    uint16_t bytes[STATES]; /* of the labels */
} parts;

static void read_parts(const uint8_t *table, size_t length, parts *p) {
    int second = plain_number16(table) >= 32768;
    p->n = plain_states(table);
    p->k = plain_number16(table + 2);
    p->rows = table + length - 2 * p->n * p->k;
    const uint8_t *list = table + 262 + 2 * p->n;
    for (size_t s = 0; s < p->n; s++) {
        const uint8_t *word = table + 262 + 2 * s;
        p->label[s] = second ? list : word;
        p->bytes[s] = (uint16_t)(second ? 2 * plain_number16(word) : 2);
        if (second) list += p->bytes[s];
    }
}

static size_t next_of(const parts *p, size_t s, size_t c) { return plain_number16(p->rows + 2 * (s * p->k + c)); }

/* Marks the states that a payload leads to from the start state. */
static void find_reached(const parts *p, size_t start, uint8_t *reached) {
    uint16_t open[STATES];
    size_t left = 0;
    memset(reached, 0, STATES);
    reached[start] = 1;
    open[left++] = (uint16_t)start;
    while (left) {
        size_t s = open[--left];
        for (size_t c = 0; c < p->k; c++) {
            size_t to = next_of(p, s, c);
            if (reached[to]) continue;
            reached[to] = 1;
            open[left++] = (uint16_t)to;
        }
    }
}

/* The states that name blocks, in the order of what is compared. */
typedef struct {
    size_t count;
    uint16_t state[STATES];
} heads;

typedef int comparing(const parts *p, const uint16_t *name, size_t x, size_t y);

/* The head that is the same as s, which becomes one where there is none. */
static inline uint16_t head_of(const parts *p, const uint16_t *name, comparing *order_of, heads *h, size_t s) {
    size_t low = 0, high = h->count;
    while (low < high) {
        size_t middle = (low + high) / 2;
        int order = order_of(p, name, s, h->state[middle]);
        if (!order) return h->state[middle];
        if (order > 0)
            low = middle + 1;
        else
            high = middle;
    }
    memmove(h->state + low + 1, h->state + low, 2 * (h->count++ - low));
    return h->state[low] = (uint16_t)s;
}

static int by_labels(const parts *p, const uint16_t *name, size_t x, size_t y) {
    int longer = p->bytes[x] - p->bytes[y];
    (void)name;
    return longer ? longer : memcmp(p->label[x], p->label[y], p->bytes[x]);
}

/* The first names: the smallest reached state with equal labels. */
static void name_by_labels(const parts *p, const uint8_t *reached, uint16_t *name) {
    heads h;
    h.count = 0;
    for (size_t s = 0; s < p->n; s++) name[s] = reached[s] ? head_of(p, name, by_labels, &h, s) : GONE;
}

/* By the names of two states, then by those of the states they go to, class by class. */
static int by_steps(const parts *p, const uint16_t *name, size_t x, size_t y) {
    const uint8_t *row = p->rows + 2 * x * p->k, *other = p->rows + 2 * y * p->k;
    if (name[x] != name[y]) return name[x] - name[y];
    for (size_t c = 0; c < p->k; c++) {
        int apart = name[plain_number16(row + 2 * c)] - name[plain_number16(other + 2 * c)];
        if (apart) return apart;
    }
    return 0;
}

/* Rounds until one splits no block: a state keeps its name where it goes on as the state that names it, else it is named by the head that does. */
static void refine(const parts *p, uint16_t *name) {
    uint16_t now[STATES];
    for (;;) {
        heads h;
        h.count = 0;
        for (size_t s = 0; s < p->n; s++) {
            size_t block = name[s];
            int stays = block == GONE || (block < s && !by_steps(p, name, s, block));
            now[s] = stays ? name[s] : head_of(p, name, by_steps, &h, s);
        }
        if (!memcmp(now, name, 2 * p->n)) return;
        memcpy(name, now, 2 * p->n);
    }
}

/* The states that name themselves stay, and are numbered in their order; answers how many, and the bytes of their labels. */
static size_t find_numbers(const parts *p, const uint16_t *name, uint16_t *stays, uint16_t *number, size_t *bytes) {
    size_t left = 0;
    *bytes = 0;
    for (size_t s = 0; s < p->n; s++) {
        if (name[s] != s) continue;
        number[s] = (uint16_t)left;
        stays[left++] = (uint16_t)s;
        *bytes += p->bytes[s];
    }
    return left;
}

kamordast_built plain_reduce(const uint8_t *table, size_t length, uint8_t *room, size_t room_length) {
    parts p;
    uint8_t reached[STATES];
    uint16_t name[STATES], stays[STATES], number[STATES];
    size_t bytes;
    read_parts(table, length, &p);
    find_reached(&p, plain_number16(table + 4), reached);
    name_by_labels(&p, reached, name);
    refine(&p, name);
    size_t left = find_numbers(&p, name, stays, number, &bytes), second = plain_number16(table) & 32768, whole = 262 + (second ? 2 * left : 0) + bytes + 2 * left * p.k;
    if (room_length < whole) return (kamordast_built){16, 0};
    memcpy(room, table, 262);
    plain_put16(room, (uint32_t)(second + left));
    plain_put16(room + 4, number[name[plain_number16(table + 4)]]);
    uint8_t *at = room + 262 + (second ? 2 * left : 0);
    for (size_t i = 0; i < left; i++) {
        if (second) plain_put16(room + 262 + 2 * i, p.bytes[stays[i]] / 2u);
        memcpy(at, p.label[stays[i]], p.bytes[stays[i]]);
        at += p.bytes[stays[i]];
    }
    for (size_t i = 0; i < left; i++)
        for (size_t c = 0; c < p.k; c++, at += 2) plain_put16(at, number[name[next_of(&p, stays[i], c)]]);
    return (kamordast_built){0, (uint32_t)whole};
}
