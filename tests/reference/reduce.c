/* The reduction of request C-24, from its text: the states that a payload reaches, and of two of them whether some payload tells them apart, found by marking pairs: first those with other labels, then those that a class
 * leads to a marked pair, until there is none left to mark. There are no blocks here: a state goes to the smallest state that is not told apart from it. */
#include <stdlib.h>
#include <string.h>

#include "editions.h"
#include "reference.h"

enum { MOST_STATES = 512, MOST_CLASSES = 256 };

/* An accepted table as numbers; who is reached, and who is told apart from whom. */
typedef struct {
    uint32_t n, k, start, next[MOST_STATES][MOST_CLASSES];
    label_lists labels;
    uint8_t reached[MOST_STATES], apart[MOST_STATES][MOST_STATES];
} machine;

static void read_machine(const uint8_t *t, machine *m) {
    m->n = states_of(t);
    m->k = word_at(t, 2);
    m->start = word_at(t, 4);
    read_lists(t, 262, &m->labels);
    size_t at = 262 + 2 * (size_t)m->n + 2 * (size_t)labels_behind(t, 262);
    for (uint32_t s = 0; s < m->n; s++)
        for (uint32_t c = 0; c < m->k; c++, at += 2) m->next[s][c] = word_at(t, at);
}

/* Goes on from the start state to every state that was not there yet. */
static void find_reached(machine *m) {
    uint32_t open[MOST_STATES], left = 0;
    memset(m->reached, 0, sizeof m->reached);
    m->reached[m->start] = 1;
    open[left++] = m->start;
    while (left) {
        uint32_t s = open[--left];
        for (uint32_t c = 0; c < m->k; c++) {
            uint32_t to = m->next[s][c];
            if (m->reached[to]) continue;
            m->reached[to] = 1;
            open[left++] = to;
        }
    }
}

static int same_labels(const machine *m, uint32_t x, uint32_t y) {
    return m->labels.count[x] == m->labels.count[y] && !memcmp(m->labels.label[x], m->labels.label[y], m->labels.count[x] * sizeof m->labels.label[x][0]);
}

/* Marks a pair that is told apart by labels or by a class that leads to a marked pair; answers whether it was not marked before. */
static int mark(machine *m, uint32_t x, uint32_t y) {
    if (m->apart[x][y]) return 0;
    int found = !same_labels(m, x, y);
    for (uint32_t c = 0; c < m->k && !found; c++) found = m->apart[m->next[x][c]][m->next[y][c]];
    m->apart[x][y] = m->apart[y][x] = (uint8_t)found;
    return found;
}

/* All pairs, from the front and from the back by turns, until a turn marks none. */
static void find_apart(machine *m) {
    memset(m->apart, 0, sizeof m->apart);
    for (int more = 1, turn = 0; more; turn = !turn) {
        more = 0;
        for (uint32_t i = 0; i < m->n; i++)
            for (uint32_t j = 0; j < i; j++) more |= turn ? mark(m, i, j) : mark(m, m->n - 1 - j, m->n - 1 - i);
    }
}

/* The smallest reached state that is not told apart from a reached one. */
static uint32_t smallest_like(const machine *m, uint32_t s) {
    for (uint32_t x = 0; x < s; x++)
        if (m->reached[x] && !m->apart[x][s]) return x;
    return s;
}

/* The states that stay, rising, and for each state that is reached the new number of the one that it goes to; answers how many stay. */
static uint32_t find_numbers(const machine *m, uint32_t *stays, uint32_t *number) {
    uint32_t left = 0;
    for (uint32_t s = 0; s < m->n; s++) {
        if (!m->reached[s]) continue;
        uint32_t like = smallest_like(m, s);
        if (like == s) {
            number[s] = left;
            stays[left++] = s;
        } else {
            number[s] = number[like];
        }
    }
    return left;
}

static uint8_t *put16(uint8_t *p, uint32_t x) {
    p[0] = x & 255;
    p[1] = x >> 8 & 255;
    return p + 2;
}

/* The table of the states that stay, over the classes and in the edition of the old one; answers its length. */
static size_t table_of(const machine *m, const uint8_t *old, uint8_t *table) {
    uint32_t stays[MOST_STATES], number[MOST_STATES], left = find_numbers(m, stays, number);
    uint8_t *p = put16(put16(put16(table, is_second(old) ? SECOND_EDITION + left : left), m->k), number[m->start]);
    memcpy(p, old + 6, 256);
    p += 256;
    for (uint32_t i = 0; i < left; i++) {
        uint32_t count = m->labels.count[stays[i]];
        p = put16(p, is_second(old) ? count : count ? m->labels.label[stays[i]][0] : 0);
    }
    for (uint32_t i = 0; is_second(old) && i < left; i++)
        for (uint32_t j = 0; j < m->labels.count[stays[i]]; j++) p = put16(p, m->labels.label[stays[i]][j]);
    for (uint32_t i = 0; i < left; i++)
        for (uint32_t c = 0; c < m->k; c++) p = put16(p, number[m->next[stays[i]][c]]);
    return (size_t)(p - table);
}

reference_built reference_reduce(const uint8_t *t, size_t length, uint8_t *room, size_t room_length) {
    reference_built answer = {reference_judge_table(t, length), 0};
    if (answer.refused) return answer;
    machine *m = malloc(sizeof *m);
    uint8_t *table = malloc(length);
    read_machine(t, m);
    find_reached(m);
    find_apart(m);
    size_t whole = table_of(m, t, table);
    if (whole > room_length) answer.refused = 16;
    else memcpy(room, table, answer.length = (uint32_t)whole);
    free(table);
    free(m);
    return answer;
}

int reference_same_reports(const uint8_t *t, const uint8_t *other) {
    static machine a, b;
    static uint8_t met[MOST_STATES][MOST_STATES];
    static uint32_t open[MOST_STATES * MOST_STATES];
    uint32_t left = 0;
    read_machine(t, &a);
    read_machine(other, &b);
    memset(met, 0, sizeof met);
    met[a.start][b.start] = 1;
    open[left++] = a.start * MOST_STATES + b.start;
    /* Every pair of states that one payload leads to. The classes are one: each table has those of the other. */
    while (left) {
        uint32_t pair = open[--left], x = pair / MOST_STATES, y = pair % MOST_STATES;
        if (a.labels.count[x] != b.labels.count[y] || memcmp(a.labels.label[x], b.labels.label[y], a.labels.count[x] * sizeof a.labels.label[x][0])) return 0;
        for (uint32_t c = 0; c < a.k; c++) {
            uint32_t to_x = a.next[x][c], to_y = b.next[y][c];
            if (met[to_x][to_y]) continue;
            met[to_x][to_y] = 1;
            open[left++] = to_x * MOST_STATES + to_y;
        }
    }
    return 1;
}
