#include "machine.h"

#include "built.h"

/* The label lists: none, one, two, another one, sixteen, and sixteen that differ in the last. In edition 1 labels that differ in one byte. */
static uint32_t list_of(uint32_t kind, uint32_t *labels) {
    static const uint32_t count[KINDS] = {0, 1, 2, 1, 16, 16};
    for (uint32_t i = 0; i < count[kind]; i++) labels[i] = 7 + 2 * i;
    if (kind == 3) labels[0] = 9;
    if (kind == 5) labels[15]++;
    return count[kind];
}

size_t put_table(const machine *m, uint32_t edition) {
    static const uint32_t single[KINDS] = {0, 7, 7 + 256, 9, 65535, 65279};
    uint32_t labels[16];
    size_t at = 262 + 2 * (size_t)m->n;
    set16(table, 0, edition == 2 ? 32768 + m->n : m->n);
    set16(table, 2, m->k);
    set16(table, 4, m->start);
    for (uint32_t x = 0; x < 256; x++) table[6 + x] = (uint8_t)((255 - x + m->start) % m->k);
    for (uint32_t s = 0; s < m->n; s++) {
        uint32_t count = list_of(m->kind[s], labels);
        set16(table, 262 + 2 * (size_t)s, edition == 2 ? count : single[m->kind[s]]);
        for (uint32_t i = 0; edition == 2 && i < count; i++, at += 2) set16(table, at, labels[i]);
    }
    for (uint32_t s = 0; s < m->n; s++)
        for (uint32_t c = 0; c < m->k; c++, at += 2) set16(table, at, m->next[s][c]);
    return at;
}

void make_machine(machine *m, uint32_t n, uint32_t k) {
    uint32_t kinds = 1 + below(KINDS), alike = below(257), targets = below(3) ? n : 1 + below(n);
    *m = (machine){.n = n, .k = k, .start = below(n)};
    for (uint32_t s = 0; s < n; s++) {
        m->kind[s] = below(3) ? 0 : below(kinds);
        for (uint32_t c = 0; c < k; c++) m->next[s][c] = s && below(256) < alike ? m->next[below(s)][c] : below(targets);
    }
}

void multiply(machine *m, const machine *from, uint32_t times) {
    uint32_t of[STATES], place[STATES];
    *m = (machine){.n = from->n * times, .k = from->k};
    for (uint32_t i = 0; i < m->n; i++) place[i] = i;
    for (uint32_t i = m->n; i > 1; i--) {
        uint32_t j = below(i), kept = place[i - 1];
        place[i - 1] = place[j];
        place[j] = kept;
    }
    for (uint32_t i = 0; i < m->n; i++) of[place[i]] = i % from->n;
    for (uint32_t s = 0; s < m->n; s++) {
        m->kind[s] = from->kind[of[s]];
        for (uint32_t c = 0; c < m->k; c++) m->next[s][c] = place[from->next[of[s]][c] + from->n * below(times)];
    }
    m->start = place[from->start + from->n * below(times)];
}
