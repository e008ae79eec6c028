#include "reference.h"

#include <stdlib.h>
#include <string.h>

#include "editions.h"

enum { NONE = 65535, MOST_STATES = 512, MOST_CLASSES = 256, MOST_PAIRS = MOST_STATES * (MOST_STATES - 1) / 2 };

static uint32_t read16(const uint8_t *b, size_t at) { return b[at] | (uint32_t)b[at + 1] << 8; }
static uint32_t read32(const uint8_t *b, size_t at) { return read16(b, at) | read16(b, at + 2) << 16; }

static void append16(uint8_t **p, uint32_t x) {
    *(*p)++ = x & 255;
    *(*p)++ = x >> 8 & 255;
}

static void append32(uint8_t **p, uint32_t x) {
    append16(p, x & 65535);
    append16(p, x >> 16);
}

/* RFC 1071, the carry brought round after every word. */
uint32_t reference_check_word(const uint8_t *b, size_t length) {
    uint32_t sum = 0;
    for (size_t i = 0; i < length; i += 2) {
        sum += b[i] + (i + 1 < length ? 256u * b[i + 1] : 0);
        if (sum > 65535) sum -= 65535;
    }
    return 65535 - sum;
}

/* The table as numbers. */
typedef struct {
    uint32_t first_word, n, k, start;
    uint8_t class_of[256];
    label_lists labels;
    uint32_t next[MOST_STATES][MOST_CLASSES];
} numbers;

/* The entries that each state stores: -1 for nothing stored here. */
typedef struct {
    uint32_t fallback[MOST_STATES];
    int32_t stored[MOST_STATES][MOST_CLASSES];
} rows;

static uint32_t classes_wrong(const uint8_t *class_of, uint32_t k) {
    int seen[256] = {0};
    for (int x = 0; x < 256; x++) {
        if (class_of[x] >= k) return 1;
        seen[class_of[x]] = 1;
    }
    for (uint32_t c = 0; c < k; c++)
        if (!seen[c]) return 1;
    return 0;
}

uint32_t reference_judge_table(const uint8_t *t, size_t length) {
    if (length < 6) return 1;
    size_t n = states_of(t), k = read16(t, 2);
    if (n < 1 || n > MOST_STATES || k < 1 || k > MOST_CLASSES) return 2;
    /* Input that ends inside the counts is 3, and no count is tested. */
    if (length < 262 + 2 * n) return 3;
    if (counts_wrong(t, 262)) return 19;
    size_t rows = 262 + 2 * n + 2 * (size_t)labels_behind(t, 262);
    if (length != rows + 2 * n * k) return 3;
    if (read16(t, 4) >= n) return 6;
    if (classes_wrong(t + 6, (uint32_t)k)) return 7;
    if (labels_wrong(t, 262)) return 19;
    for (size_t i = 0; i < n * k; i++)
        if (read16(t, rows + 2 * i) >= n) return 10;
    return 0;
}

static numbers *table_numbers(const uint8_t *t) {
    numbers *a = calloc(1, sizeof *a);
    a->first_word = read16(t, 0);
    a->n = states_of(t);
    a->k = read16(t, 2);
    a->start = read16(t, 4);
    memcpy(a->class_of, t + 6, 256);
    read_lists(t, 262, &a->labels);
    size_t rows = 262 + 2 * (size_t)a->n + 2 * (size_t)labels_behind(t, 262);
    for (uint32_t s = 0; s < a->n; s++)
        for (uint32_t c = 0; c < a->k; c++) a->next[s][c] = read16(t, rows + 2 * (s * a->k + c));
    return a;
}

/* The steps from s to its root, or -1 where its chain does not end. */
static int chain_length(const uint32_t *fallback, uint32_t n, uint32_t s) {
    uint32_t steps = 0;
    for (; fallback[s] != NONE; s = fallback[s])
        if (++steps > n) return -1;
    return (int)steps;
}

static uint32_t look_up(const rows *r, uint32_t s, uint32_t c, uint32_t *hops) {
    *hops = 0;
    while (r->stored[s][c] < 0) {
        s = r->fallback[s];
        ++*hops;
    }
    return (uint32_t)r->stored[s][c];
}

static uint32_t depth_of(const rows *r, uint32_t n) {
    uint32_t depth = 0;
    for (uint32_t s = 0; s < n; s++) {
        uint32_t l = (uint32_t)chain_length(r->fallback, n, s);
        if (l > depth) depth = l;
    }
    return depth;
}

static uint32_t worst_of(const rows *r, uint32_t n, const uint8_t *class_of) {
    uint32_t worst = 0, hops;
    for (uint32_t s = 0; s < n; s++)
        for (int x = 0; x < 256; x++) {
            look_up(r, s, class_of[x], &hops);
            if (hops > worst) worst = hops;
        }
    return worst;
}

uint32_t reference_judge_image(const uint8_t *b, size_t length) {
    if (length < 24) return 1;
    uint64_t n = states_of(b), k = read16(b, 2), m = read32(b, 8);
    if (n < 1 || n > MOST_STATES || k < 1 || k > MOST_CLASSES || m < k || m > n * k) return 2;
    /* Input that ends inside the counts is 3, and no count is tested. */
    if (length < 268 + 2 * n) return 3;
    if (counts_wrong(b, 268)) return 19;
    size_t records = 268 + 2 * n + 2 * (size_t)labels_behind(b, 268), entries = records + 4 * n;
    if (length != entries + 4 * m + 12) return 3;
    if (read32(b, length - 8) != length || read32(b, length - 12) != 4 * m + 12) return 4;
    if (read16(b, length - 2) != reference_check_word(b, length - 2)) return 5;
    if (read16(b, 4) >= n) return 6;
    if (classes_wrong(b + 12, (uint32_t)k)) return 7;
    if (labels_wrong(b, 268)) return 19;
    uint64_t sum = 0;
    for (size_t s = 0; s < n; s++) {
        uint32_t d = read16(b, records + 4 * s), count = read16(b, records + 4 * s + 2);
        if ((d != NONE && d >= n) || count > k || (d == NONE && count != k)) return 8;
        sum += count;
    }
    if (sum != m) return 8;
    size_t at = entries;
    for (size_t s = 0; s < n; s++) {
        uint32_t count = read16(b, records + 4 * s + 2);
        for (uint32_t j = 0; j < count; j++)
            if (read16(b, at + 4 * j) >= k || (j > 0 && read16(b, at + 4 * j) <= read16(b, at + 4 * j - 4))) return 9;
        at += 4 * count;
    }
    for (size_t j = 0; j < m; j++)
        if (read16(b, entries + 4 * j + 2) >= n) return 10;
    rows *r = malloc(sizeof *r);
    memset(r->stored, 255, sizeof r->stored);
    at = entries;
    for (size_t s = 0; s < n; s++) {
        uint32_t count = read16(b, records + 4 * s + 2);
        r->fallback[s] = read16(b, records + 4 * s);
        for (uint32_t j = 0; j < count; j++, at += 4) r->stored[s][read16(b, at)] = (int32_t)read16(b, at + 2);
    }
    uint32_t refused = 0;
    for (uint32_t s = 0; s < n && !refused; s++)
        if (chain_length(r->fallback, (uint32_t)n, s) < 0) refused = 11;
    for (uint32_t s = 0; s < n && !refused; s++)
        for (uint32_t c = 0; c < k && !refused; c++) {
            uint32_t hops;
            if (r->fallback[s] != NONE && r->stored[s][c] >= 0 && look_up(r, r->fallback[s], c, &hops) == (uint32_t)r->stored[s][c]) refused = 12;
        }
    if (!refused && (read16(b, 6) != depth_of(r, (uint32_t)n) || read16(b, length - 4) != worst_of(r, (uint32_t)n, b + 12))) refused = 13;
    free(r);
    return refused;
}

/* The labels as the first word's edition has them: one for each state, or the counts and then the lists. Answers the place behind them. */
static uint8_t *append_labels(uint8_t *p, const numbers *a) {
    int second = a->first_word >= SECOND_EDITION;
    for (uint32_t s = 0; s < a->n; s++) append16(&p, second ? a->labels.count[s] : a->labels.count[s] ? a->labels.label[s][0] : 0);
    for (uint32_t s = 0; second && s < a->n; s++)
        for (uint32_t i = 0; i < a->labels.count[s]; i++) append16(&p, a->labels.label[s][i]);
    return p;
}

/* The image of a table with defaults, into a new block; the caller frees it. */
static uint8_t *image_of(const numbers *a, const uint32_t *fallback, size_t *length) {
    rows *r = malloc(sizeof *r);
    memset(r->stored, 255, sizeof r->stored);
    memcpy(r->fallback, fallback, sizeof r->fallback);
    uint32_t m = 0, count[MOST_STATES] = {0};
    for (uint32_t s = 0; s < a->n; s++)
        for (uint32_t c = 0; c < a->k; c++)
            if (fallback[s] == NONE || a->next[s][c] != a->next[fallback[s]][c]) {
                r->stored[s][c] = (int32_t)a->next[s][c];
                count[s]++;
                m++;
            }
    *length = 280 + 6 * a->n + 4 * m;
    for (uint32_t s = 0; a->first_word >= SECOND_EDITION && s < a->n; s++) *length += 2 * a->labels.count[s];
    uint8_t *image = malloc(*length), *p = image;
    append16(&p, a->first_word);
    append16(&p, a->k);
    append16(&p, a->start);
    append16(&p, depth_of(r, a->n));
    append32(&p, m);
    memcpy(p, a->class_of, 256);
    p += 256;
    p = append_labels(p, a);
    for (uint32_t s = 0; s < a->n; s++) {
        append16(&p, fallback[s]);
        append16(&p, count[s]);
    }
    for (uint32_t s = 0; s < a->n; s++)
        for (uint32_t c = 0; c < a->k; c++)
            if (r->stored[s][c] >= 0) {
                append16(&p, c);
                append16(&p, (uint32_t)r->stored[s][c]);
            }
    append32(&p, 4 * m + 12);
    append32(&p, (uint32_t)*length);
    append16(&p, worst_of(r, a->n, a->class_of));
    append16(&p, reference_check_word(image, *length - 2));
    free(r);
    return image;
}

static reference_built fill(uint8_t *result, size_t length, uint8_t *room, size_t room_length) {
    reference_built answer = {0, 0};
    if (room_length < length) {
        answer.refused = 16;
    } else {
        memcpy(room, result, length);
        answer.length = (uint32_t)length;
    }
    free(result);
    return answer;
}

static reference_built refuse(uint32_t number) {
    reference_built answer = {number, 0};
    return answer;
}

/* How many classes lead two states to equal next states. */
static uint32_t classes_shared(const numbers *a, uint32_t x, uint32_t y) {
    uint32_t shared = 0;
    for (uint32_t c = 0; c < a->k; c++) shared += a->next[x][c] == a->next[y][c];
    return shared;
}

/* The image of a table with a list: the table's grounds, 8, 11, for write 25, and 16. */
static reference_built written(const uint8_t *t, size_t length, const uint8_t *defaults, size_t defaults_length, int retired, uint8_t *room, size_t room_length) {
    uint32_t refused = reference_judge_table(t, length);
    if (refused) return refuse(refused);
    uint32_t n = states_of(t), fallback[MOST_STATES];
    if (defaults_length != 2 * (size_t)n) return refuse(8);
    for (uint32_t s = 0; s < n; s++) {
        fallback[s] = read16(defaults, 2 * s);
        if (fallback[s] != NONE && fallback[s] >= n) return refuse(8);
    }
    for (uint32_t s = 0; s < n; s++)
        if (chain_length(fallback, n, s) < 0) return refuse(11);
    numbers *a = table_numbers(t);
    for (uint32_t s = 0; retired && s < n && !refused; s++)
        if (fallback[s] != NONE && classes_shared(a, s, fallback[s]) < 2) refused = 25;
    size_t result_length = 0;
    uint8_t *result = refused ? NULL : image_of(a, fallback, &result_length);
    free(a);
    return refused ? refuse(refused) : fill(result, result_length, room, room_length);
}

reference_built reference_write(const uint8_t *t, size_t length, const uint8_t *defaults, size_t defaults_length, uint8_t *room, size_t room_length) {
    return written(t, length, defaults, defaults_length, 1, room, room_length);
}

reference_built reference_image(const uint8_t *t, size_t length, const uint8_t *defaults, size_t defaults_length, uint8_t *room, size_t room_length) {
    return written(t, length, defaults, defaults_length, 0, room, room_length);
}

/* The forest: the pairs added, as each state's neighbours. Distances are found by a search over them, anew at each question. */
typedef struct {
    uint32_t n, added, degree[MOST_STATES];
    uint16_t neighbour[MOST_STATES][MOST_STATES];
} forest;

static void add(forest *f, uint32_t u, uint32_t v) {
    f->neighbour[u][f->degree[u]++] = (uint16_t)v;
    f->neighbour[v][f->degree[v]++] = (uint16_t)u;
    f->added++;
}

/* Takes the pair that was added last away again. */
static void take_back(forest *f, uint32_t u, uint32_t v) {
    f->degree[u]--;
    f->degree[v]--;
    f->added--;
}

/* The distances from s over the pairs added; -1 for another tree. Answers a state that is farthest. */
static uint32_t distances(const forest *f, uint32_t s, int *distance) {
    uint32_t queue[MOST_STATES], head = 0, tail = 0, x = s;
    for (uint32_t y = 0; y < f->n; y++) distance[y] = -1;
    distance[s] = 0;
    queue[tail++] = s;
    while (head < tail) {
        x = queue[head++];
        for (uint32_t i = 0; i < f->degree[x]; i++) {
            uint32_t y = f->neighbour[x][i];
            if (distance[y] < 0) {
                distance[y] = distance[x] + 1;
                queue[tail++] = y;
            }
        }
    }
    return x;
}

/* d: the largest distance from s to a state of its tree. */
static int farthest(const forest *f, uint32_t s) {
    int distance[MOST_STATES];
    uint32_t last = distances(f, s, distance);
    return distance[last];
}

/* The longest path of the tree of s: it begins at a state that is farthest from any. */
static int longest(const forest *f, uint32_t s) {
    int distance[MOST_STATES];
    return farthest(f, distances(f, s, distance));
}

/* The pairs of one weight that are left, by first state and then by second, and the number by which each is ordered before that. */
typedef struct {
    size_t count;
    uint16_t u[MOST_PAIRS], v[MOST_PAIRS], key[MOST_PAIRS];
    uint8_t gone[MOST_PAIRS];
} pairs;

/* The keys of the moment. Order 0: none, so they stay 0. Order 1, BGS: d(u) + d(v) + 1, the longest path over the pair. Order 2, REF: how much longer that is than the longest path of
 * either tree, and 0 where it is no longer. */
static void find_keys(const forest *f, uint32_t order, pairs *p) {
    int far[MOST_STATES], path[MOST_STATES];
    if (order == 0) return;
    for (uint32_t x = 0; x < f->n; x++) {
        far[x] = farthest(f, x);
        path[x] = longest(f, x);
    }
    for (size_t i = 0; i < p->count; i++) {
        uint32_t u = p->u[i], v = p->v[i];
        int across = far[u] + far[v] + 1, growth = across - (path[u] > path[v] ? path[u] : path[v]);
        p->key[i] = (uint16_t)(order == 1 ? across : growth > 0 ? growth : 0);
    }
}

/* The places of the pairs by their keys, and by states where keys are equal. */
static void by_keys(const pairs *p, uint32_t *place) {
    size_t begin[2 * MOST_STATES + 1] = {0};
    for (size_t i = 0; i < p->count; i++) begin[p->key[i] + 1]++;
    for (size_t key = 0; key < 2 * MOST_STATES; key++) begin[key + 1] += begin[key];
    for (size_t i = 0; i < p->count; i++) place[begin[p->key[i]]++] = (uint32_t)i;
}

/* Takes the pairs, each time the first of those that are left, and adds it if it joins two trees to one whose longest path is at most the bound. Between two additions
 * no key changes, so keys are found anew only after one. With n - 1 pairs added no more can be. */
static void take_pairs(forest *f, uint32_t order, uint32_t bound, pairs *p, uint32_t *place) {
    while (p->count > 0 && f->added + 1 < f->n) {
        find_keys(f, order, p);
        by_keys(p, place);
        int added = 0;
        for (size_t i = 0; i < p->count && !added; i++) {
            int distance[MOST_STATES];
            uint32_t u = p->u[place[i]], v = p->v[place[i]];
            p->gone[place[i]] = 1;
            distances(f, u, distance);
            if (distance[v] >= 0) continue;
            add(f, u, v);
            added = (uint32_t)longest(f, u) <= bound;
            if (!added) take_back(f, u, v);
        }
        size_t left = 0;
        for (size_t i = 0; i < p->count; i++) {
            if (p->gone[i]) continue;
            p->u[left] = p->u[i];
            p->v[left++] = p->v[i];
        }
        memset(p->gone, 0, p->count);
        p->count = left;
    }
}

/* The root of the tree of x: of the states with the smallest d those that the most added pairs end at, and of these the one with the smallest number. */
static uint32_t root_of(const forest *f, uint32_t x) {
    int distance[MOST_STATES], least = -1;
    uint32_t root = x;
    distances(f, x, distance);
    for (uint32_t y = 0; y < f->n; y++)
        if (distance[y] >= 0) {
            int far = farthest(f, y);
            if (least < 0 || far < least || (far == least && f->degree[y] > f->degree[root])) {
                least = far;
                root = y;
            }
        }
    return root;
}

/* Orders 0 to 2: the defaults of the forest, each state's toward the root of its tree. */
static void fall_to_roots(const numbers *a, uint32_t order, uint32_t bound, uint32_t *fallback) {
    forest *f = calloc(1, sizeof *f);
    f->n = a->n;
    uint8_t(*weight)[MOST_STATES] = calloc(MOST_STATES, sizeof *weight);
    for (uint32_t u = 0; u < a->n; u++)
        for (uint32_t v = u + 1; v < a->n; v++) {
            uint32_t same = classes_shared(a, u, v);
            weight[u][v] = (uint8_t)(same > 0 ? same - 1 : 0);
        }
    pairs *p = calloc(1, sizeof *p);
    uint32_t *place = malloc(MOST_PAIRS * sizeof *place);
    for (uint32_t w = a->k - 1; w >= 1; w--) {
        p->count = 0;
        for (uint32_t u = 0; u < a->n; u++)
            for (uint32_t v = u + 1; v < a->n; v++)
                if (weight[u][v] == w) {
                    p->u[p->count] = (uint16_t)u;
                    p->v[p->count++] = (uint16_t)v;
                }
        take_pairs(f, order, bound, p, place);
    }
    for (uint32_t x = 0; x < a->n; x++) {
        int distance[MOST_STATES];
        distances(f, root_of(f, x), distance);
        fallback[x] = NONE;
        for (uint32_t i = 0; i < f->degree[x]; i++)
            if (distance[f->neighbour[x][i]] == distance[x] - 1) fallback[x] = f->neighbour[x][i];
    }
    free(place);
    free(p);
    free(weight);
    free(f);
}

/* The level of each state, the fewest bytes from the start state to it: a search that begins there and goes on by all 256 bytes. -1 where no payload leads. */
static void find_levels(const numbers *a, int *level) {
    uint32_t queue[MOST_STATES], head = 0, tail = 0;
    for (uint32_t s = 0; s < a->n; s++) level[s] = -1;
    level[a->start] = 0;
    queue[tail++] = a->start;
    while (head < tail) {
        uint32_t s = queue[head++];
        for (int x = 0; x < 256; x++) {
            uint32_t to = a->next[s][a->class_of[x]];
            if (level[to] >= 0) continue;
            level[to] = level[s] + 1;
            queue[tail++] = to;
        }
    }
}

/* Order 3: a state that is reached falls to the state of lower level, whichever lower level, that shares the most next states with it, in at least two classes; of
 * several to the smallest number. A state that is not reached has no level, so it neither falls nor is fallen to. */
static void fall_toward_start(const numbers *a, uint32_t *fallback) {
    int level[MOST_STATES];
    find_levels(a, level);
    for (uint32_t x = 0; x < a->n; x++) {
        uint32_t most = 0;
        fallback[x] = NONE;
        for (uint32_t y = 0; y < a->n; y++) {
            if (level[x] < 0 || level[y] < 0 || level[y] >= level[x]) continue;
            uint32_t shared = classes_shared(a, x, y);
            if (shared < 2 || shared <= most) continue;
            most = shared;
            fallback[x] = y;
        }
    }
}

void reference_levels(const uint8_t *t, int *level) {
    numbers *a = table_numbers(t);
    find_levels(a, level);
    free(a);
}

reference_built reference_compact(const uint8_t *t, size_t length, uint32_t order, uint32_t bound, uint8_t *room, size_t room_length) {
    if (order > 3) return refuse(18);
    uint32_t refused = reference_judge_table(t, length);
    if (refused) return refuse(refused);
    numbers *a = table_numbers(t);
    uint32_t fallback[MOST_STATES];
    if (order == 3) fall_toward_start(a, fallback);
    else fall_to_roots(a, order, bound, fallback);
    size_t result_length;
    uint8_t *result = image_of(a, fallback, &result_length);
    free(a);
    return fill(result, result_length, room, room_length);
}

static rows *image_rows(const uint8_t *b) {
    rows *r = malloc(sizeof *r);
    memset(r->stored, 255, sizeof r->stored);
    uint32_t n = states_of(b);
    size_t records = 268 + 2 * (size_t)n + 2 * (size_t)labels_behind(b, 268), at = records + 4 * (size_t)n;
    for (uint32_t s = 0; s < n; s++) {
        r->fallback[s] = read16(b, records + 4 * s);
        for (uint32_t j = read16(b, records + 4 * s + 2); j > 0; j--, at += 4) r->stored[s][read16(b, at)] = (int32_t)read16(b, at + 2);
    }
    return r;
}

reference_built reference_expand(const uint8_t *b, size_t length, uint8_t *room, size_t room_length) {
    uint32_t refused = reference_judge_image(b, length);
    if (refused) return refuse(refused);
    uint32_t n = states_of(b), k = read16(b, 2), hops;
    rows *r = image_rows(b);
    /* The classes and all of the labels stand in the table as in the image. */
    size_t same = 256 + 2 * (size_t)n + 2 * (size_t)labels_behind(b, 268), result_length = 6 + same + 2 * (size_t)n * k;
    uint8_t *result = malloc(result_length), *p = result;
    memcpy(p, b, 6);
    memcpy(p + 6, b + 12, same);
    p += 6 + same;
    for (uint32_t s = 0; s < n; s++)
        for (uint32_t c = 0; c < k; c++) append16(&p, look_up(r, s, c, &hops));
    free(r);
    return fill(result, result_length, room, room_length);
}

/* The table of the image, and of its defaults those that share two classes or more with their states, by the rows of that table. */
reference_built reference_rewrite(const uint8_t *b, size_t length, uint8_t *room, size_t room_length) {
    uint32_t refused = reference_judge_image(b, length);
    if (refused) return refuse(refused);
    uint32_t n = states_of(b), fallback[MOST_STATES];
    size_t most = 262 + 2 * (size_t)n + 2 * (size_t)labels_behind(b, 268) + 2 * (size_t)n * read16(b, 2), result_length;
    uint8_t *t = malloc(most);
    reference_expand(b, length, t, most);
    numbers *a = table_numbers(t);
    rows *r = image_rows(b);
    for (uint32_t s = 0; s < n; s++) fallback[s] = r->fallback[s] == NONE || classes_shared(a, s, r->fallback[s]) < 2 ? NONE : r->fallback[s];
    uint8_t *result = image_of(a, fallback, &result_length);
    free(r);
    free(a);
    free(t);
    return fill(result, result_length, room, room_length);
}

reference_scanned reference_scan(const uint8_t *b, size_t length, uint32_t state, const uint8_t *payload, size_t payload_length,
                                 uint8_t *room, size_t room_length) {
    reference_scanned answer = {reference_judge_image(b, length), 0, 0, 0, 0};
    if (!answer.refused && state >= states_of(b)) answer.refused = 14;
    if (!answer.refused && payload_length > 65536) answer.refused = 15;
    if (answer.refused) return answer;
    rows *r = image_rows(b);
    label_lists labels;
    read_lists(b, 268, &labels);
    answer.state = state;
    for (size_t i = 0; i < payload_length; i++) {
        uint32_t hops, to = look_up(r, answer.state, b[12 + payload[i]], &hops), count = labels.count[to];
        /* All reports of the byte, or none of them and the byte is not taken. */
        if (6 * ((size_t)answer.reports + count) > room_length) break;
        uint8_t *p = room + 6 * (size_t)answer.reports;
        for (uint32_t j = 0; j < count; j++) {
            append32(&p, (uint32_t)i);
            append16(&p, labels.label[to][j]);
        }
        answer.reports += count;
        answer.state = to;
        answer.hops += hops;
        answer.taken++;
    }
    free(r);
    return answer;
}

reference_scanned reference_walk(const uint8_t *t, size_t length, uint32_t state, const uint8_t *payload, size_t payload_length,
                                 uint8_t *room, size_t room_length) {
    reference_scanned answer = {reference_judge_table(t, length), 0, 0, 0, 0};
    if (!answer.refused && state >= states_of(t)) answer.refused = 14;
    if (!answer.refused && payload_length > 65536) answer.refused = 15;
    if (answer.refused) return answer;
    size_t n = states_of(t), k = read16(t, 2), left = room_length / 6;
    /* The table from its front on: 6 bytes, 256 classes, n labels, or n counts and then the lists, and then the rows, one for each state. */
    const uint8_t *words = t + 6 + 256, *rows = words + 2 * n, *list[MOST_STATES];
    for (size_t s = 0; s < n; s++) {
        list[s] = is_second(t) ? rows : words + 2 * s;
        if (is_second(t)) rows += 2 * read16(words, 2 * s);
    }
    for (answer.state = state; answer.taken < payload_length; answer.taken++) {
        const uint8_t *row = rows + 2 * k * answer.state;
        uint32_t to = read16(row, 2 * (size_t)t[6 + payload[answer.taken]]), word = read16(words, 2 * (size_t)to), count = is_second(t) ? word : word > 0;
        if (count > left) break;
        for (uint32_t j = 0; j < count; j++) {
            append32(&room, answer.taken);
            append16(&room, read16(list[to], 2 * (size_t)j));
        }
        left -= count;
        answer.reports += count;
        answer.state = to;
    }
    return answer;
}
