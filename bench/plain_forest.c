/* The bounded greedy forest in plain C, the algorithm of crate `forest` without its proofs: weights kept once, parents turned at each joining. The pairs of
 * one weight are found by a test of each pair, as the crate does, or, seeking, by the C library's search for a byte. In the orders 1 and 2 the best pair of a weight
 * is sought again after each joining, with a floor for each row, as the crate does too. */
#include "plain.h"

typedef struct {
    uint16_t d[512], parent[512], tree[512];
} joined_trees;

static uint8_t weights[512 * 512];

/* Turns the parents from a state to its root, so that the state is the root. */
static void turn(uint16_t *parent, size_t u) {
    size_t back = u, at = u;
    for (;;) {
        size_t next = parent[at];
        parent[at] = (uint16_t)back;
        if (next == at) return;
        back = at;
        at = next;
    }
}

static uint16_t steps(const uint16_t *parent, size_t x, size_t root) {
    uint16_t steps = 0;
    for (; x != root; x = parent[x]) steps++;
    return steps;
}

static void join(joined_trees *f, size_t n, size_t u, size_t v) {
    uint16_t du = f->d[u], dv = f->d[v], tu = f->tree[u], tv = f->tree[v];
    turn(f->parent, u);
    turn(f->parent, v);
    for (size_t x = 0; x < n; x++) {
        uint16_t far = 0;
        if (f->tree[x] == tu) far = (uint16_t)(steps(f->parent, x, u) + 1 + dv);
        else if (f->tree[x] == tv) far = (uint16_t)(steps(f->parent, x, v) + 1 + du);
        if (f->d[x] < far) f->d[x] = far;
    }
    for (size_t x = 0; x < n; x++)
        if (f->tree[x] == tv) f->tree[x] = tu;
    f->parent[v] = (uint16_t)u;
}

/* Adds a pair if its ends lie in different trees and the joined tree's longest path is within the bound. */
static inline void try_pair(joined_trees *f, size_t n, uint32_t bound, size_t u, size_t v) {
    if (f->tree[u] != f->tree[v] && (uint32_t)f->d[u] + f->d[v] + 1 <= bound) join(f, n, u, v);
}

static void test_each(joined_trees *f, size_t n, uint32_t bound, size_t w) {
    for (size_t u = 0; u < n; u++)
        for (size_t v = u + 1; v < n; v++)
            if (weights[u * 512 + v] == w) try_pair(f, n, bound, u, v);
}

static void seek(joined_trees *f, size_t n, uint32_t bound, size_t w) {
    for (size_t u = 0; u < n; u++) {
        const uint8_t *row = weights + u * 512, *at = row + u;
        while ((at = memchr(at + 1, (int)w, (size_t)(row + n - at - 1)))) try_pair(f, n, bound, u, (size_t)(at - row));
    }
}

enum { NO_KEY = 65536 };

typedef struct {
    uint32_t key;
    size_t u, v;
} pick;

/* The longest path of each state's tree. */
static void longest_paths(const joined_trees *f, size_t n, uint16_t *longest) {
    uint16_t most[512] = {0};
    for (size_t x = 0; x < n; x++)
        if (most[f->tree[x]] < f->d[x]) most[f->tree[x]] = f->d[x];
    for (size_t x = 0; x < n; x++) longest[x] = most[f->tree[x]];
}

static inline uint32_t key_of(uint32_t order, uint32_t across, uint16_t lu, uint16_t lv) {
    uint32_t longest = lu > lv ? lu : lv;
    return order == 1 ? across : across > longest ? across - longest : 0;
}

/* The best pair of a row. */
static pick best_in_row(const joined_trees *f, const uint16_t *longest, size_t n, uint32_t order, uint32_t bound, size_t w, size_t u) {
    pick best = {NO_KEY, 0, 0};
    for (size_t v = u + 1; v < n; v++) {
        uint32_t across = (uint32_t)f->d[u] + f->d[v] + 1;
        if (weights[u * 512 + v] != w || f->tree[u] == f->tree[v] || across > bound) continue;
        uint32_t key = key_of(order, across, longest[u], longest[v]);
        if (key < best.key) best = (pick){key, u, v};
    }
    return best;
}

/* Joins the best pair of one weight as long as there is one. No key of a row is below its floor; in order 2 a joining may lower keys, but in a row without a pair
 * there never is one again. */
static void join_best(joined_trees *f, size_t n, uint32_t order, uint32_t bound, size_t w) {
    uint32_t floor[512] = {0};
    for (;;) {
        uint16_t longest[512];
        pick best = {NO_KEY, 0, 0};
        longest_paths(f, n, longest);
        for (size_t u = 0; u < n; u++) {
            if (floor[u] >= best.key) continue;
            pick row = best_in_row(f, longest, n, order, bound, w, u);
            floor[u] = row.key;
            if (row.key < best.key) best = row;
        }
        if (best.key == NO_KEY) return;
        join(f, n, best.u, best.v);
        for (size_t u = 0; u < n && order == 2; u++)
            if (floor[u] < NO_KEY) floor[u] = 0;
    }
}

/* Joins the best pairs of each weight that some pair has. */
static void join_all_best(joined_trees *f, size_t n, uint32_t order, uint32_t bound, size_t top) {
    uint8_t seen[256] = {0};
    for (size_t u = 0; u < n; u++)
        for (size_t v = u + 1; v < n; v++) seen[weights[u * 512 + v]] = 1;
    for (size_t w = top; w > 0; w--)
        if (seen[w]) join_best(f, n, order, bound, w);
}

/* As a root x goes before y: smaller d, of two more neighbours, of two the smaller number. */
static inline int before(const joined_trees *f, const uint16_t *near, size_t x, size_t y) {
    if (f->d[x] != f->d[y]) return f->d[x] < f->d[y];
    if (near[x] != near[y]) return near[x] > near[y];
    return x < y;
}

void plain_defaults(const uint8_t *table, size_t length, uint32_t order, uint32_t bound, int seeking, uint16_t *defaults) {
    size_t n = PLAIN_N(table), k = plain_number16(table + 2);
    const uint8_t *rows = table + length - 2 * n * k;
    joined_trees f;
    if (order == 3 && seeking) {
        plain_toward(table, length, NULL, defaults);
        return;
    }
    for (size_t u = 0; u < n; u++)
        for (size_t v = u + 1; v < n; v++) {
            uint16_t same = 0;
            for (size_t c = 0; c < k; c++) same += plain_number16(rows + 2 * (u * k + c)) == plain_number16(rows + 2 * (v * k + c));
            weights[u * 512 + v] = (uint8_t)(same ? same - 1 : 0);
        }
    if (order == 3) {
        plain_toward(table, length, weights, defaults);
        return;
    }
    for (size_t s = 0; s < n; s++) {
        f.d[s] = 0;
        f.parent[s] = f.tree[s] = (uint16_t)s;
    }
    if (order) join_all_best(&f, n, order, bound, k - 1);
    else
        for (size_t w = k - 1; w > 0; w--) (seeking ? seek : test_each)(&f, n, bound, w);
    uint16_t near[512] = {0};
    for (size_t s = 0; s < n; s++)
        if (f.parent[s] != s) {
            near[s]++;
            near[f.parent[s]]++;
        }
    for (size_t s = 0; s < n; s++) {
        size_t first = s;
        for (size_t x = 0; x < n; x++)
            if (f.tree[x] == f.tree[s] && before(&f, near, x, first)) first = x;
        if (first == s) turn(f.parent, s);
    }
    for (size_t s = 0; s < n; s++) defaults[s] = f.parent[s] == s ? 65535 : f.parent[s];
}
