#include "drawing.h"

#include <stdio.h>

#include "layout.h"

void put_name(const char *name) {
    for (const unsigned char *at = (const unsigned char *)name; *at; at++) {
        if (*at == '&' || *at == '<' || *at == '>' || *at == '"' || *at == '\'') printf("&#%u;", (unsigned)*at);
        else if (*at < 32 || *at > 126) printf("\\x%02x", (unsigned)*at);
        else putchar(*at);
    }
}

void draw_bars(const char (*words)[32], const uint64_t *numbers, uint32_t count) {
    uint64_t most = 1;
    for (uint32_t i = 0; i < count; i++)
        if (numbers[i] > most) most = numbers[i];
    printf("<svg class=\"bars\" width=\"560\" height=\"%u\" viewBox=\"0 0 560 %u\" aria-hidden=\"true\">\n", (unsigned)(22 * count + 4), (unsigned)(22 * count + 4));
    for (uint32_t i = 0; i < count; i++) {
        unsigned y = 22 * i + 2, wide = (unsigned)((double)numbers[i] * 320 / (double)most + 0.5);
        printf("<text x=\"114\" y=\"%u\" text-anchor=\"end\">%s</text><rect class=\"bar\" x=\"120\" y=\"%u\" width=\"%u\" height=\"16\"/><text x=\"%u\" y=\"%u\">%llu</text>\n", y + 13, words[i], y,
               wide || !numbers[i] ? wide : 1, 126 + wide, y + 13, (unsigned long long)numbers[i]);
    }
    printf("</svg>\n");
}

void draw_places(const uint32_t *numbers, uint32_t count, uint64_t width) {
    uint32_t most = 1;
    for (uint32_t i = 0; i < count; i++)
        if (numbers[i] > most) most = numbers[i];
    printf("<svg class=\"places\" width=\"780\" height=\"90\" viewBox=\"0 0 780 90\" role=\"img\" aria-labelledby=\"places-title places-desc\">\n<title id=\"places-title\">Where the payload was reported</title>\n"
           "<desc id=\"places-desc\">%u bars from the payload's front to its end, each of %llu bytes; the highest has %u reports.</desc>\n",
           (unsigned)count, (unsigned long long)width, (unsigned)most);
    for (uint32_t i = 0; i < count; i++)
        if (numbers[i]) printf("<rect class=\"bar\" x=\"%.1f\" y=\"%.1f\" width=\"%.1f\" height=\"%.1f\"/>\n", 6 + 768.0 * i / count, 62 - 56.0 * numbers[i] / most, 768.0 / count * 0.9, 56.0 * numbers[i] / most);
    printf("<path class=\"line\" d=\"M6 63H774\"/><text x=\"6\" y=\"82\">0</text><text x=\"774\" y=\"82\" text-anchor=\"end\">%llu</text>\n</svg>\n", (unsigned long long)(count * width));
}

enum { ROWS = 64, HIGH = 20, STEP = 14, MOST_STEPS = 8, TEXT = 230 };

/* The order of the drawing: each state behind the one that it falls to, with its depth. */
typedef struct {
    uint16_t state[512], depth[512], place[512];
    uint32_t count, deepest;
} order;

/* The states of a tree, from its root down, without a call for each level: a chain can have 511. */
static void order_states(const uint8_t *image, size_t length, order *o) {
    uint32_t n = states_of(image);
    size_t records = records_at(image, length);
    uint16_t at[512], down[512], depth = 0;
    o->count = o->deepest = 0;
    for (uint32_t root = 0; root < n; root++) {
        if (number16(image, records + 4 * (size_t)root) != NO_STATE) continue;
        at[0] = (uint16_t)root;
        down[0] = depth = 0;
        for (int new = 1;;) {
            if (new) {
                o->place[at[depth]] = (uint16_t)o->count;
                o->state[o->count] = at[depth];
                o->depth[o->count++] = depth;
                if (depth > o->deepest) o->deepest = depth;
            }
            uint32_t child = down[depth];
            while (child < n && number16(image, records + 4 * (size_t)child) != at[depth]) child++;
            new = child < n;
            if (new) {
                down[depth++] = (uint16_t)(child + 1);
                at[depth] = (uint16_t)child;
                down[depth] = 0;
            } else if (depth-- == 0) {
                break;
            }
        }
    }
}

/* The words beside a state. */
static void put_words(const uint8_t *image, size_t length, uint32_t s, uint32_t depth, uint32_t elsewhere) {
    uint32_t word = number16(image, IMAGE_LABELS + 2 * (size_t)s);
    printf("<tspan class=\"state\">%u</tspan> stores %u", (unsigned)s, (unsigned)number16(image, records_at(image, length) + 4 * (size_t)s + 2));
    if (s == number16(image, 4)) printf(", start");
    if (word && edition_of(image) == 1) printf(", label %u", (unsigned)word);
    if (word && edition_of(image) == 2) printf(", %u label%s", (unsigned)word, word > 1 ? "s" : "");
    if (depth > MOST_STEPS || elsewhere) printf(", falls to %u", (unsigned)number16(image, records_at(image, length) + 4 * (size_t)s));
}

void draw_forest(const uint8_t *image, size_t length) {
    static order o;
    order_states(image, length, &o);
    uint32_t columns = (o.count + ROWS - 1) / ROWS, rows = o.count < ROWS ? o.count : ROWS, steps = o.deepest < MOST_STEPS ? o.deepest : MOST_STEPS, wide = TEXT + STEP * steps;
    printf("<svg class=\"forest\" width=\"%u\" height=\"%u\" viewBox=\"0 0 %u %u\" role=\"img\" aria-labelledby=\"forest-title forest-desc\">\n<title id=\"forest-title\">The forest of defaults</title>\n"
           "<desc id=\"forest-desc\">%u states in %u columns. Each stands below the state that it falls back to, a step to the right; roots stand at the left. The table of states says the same.</desc>\n",
           (unsigned)(columns * wide), (unsigned)(rows * HIGH + 8), (unsigned)(columns * wide), (unsigned)(rows * HIGH + 8), (unsigned)o.count, (unsigned)columns);
    for (uint32_t i = 0; i < o.count; i++) {
        uint32_t s = o.state[i], depth = o.depth[i], step = depth < MOST_STEPS ? depth : MOST_STEPS, x = i / ROWS * wide + 10 + STEP * step, y = i % ROWS * HIGH + 14;
        uint32_t above = depth ? o.place[number16(image, records_at(image, length) + 4 * (size_t)s)] : i, elsewhere = above / ROWS != i / ROWS;
        if (depth && depth <= MOST_STEPS && !elsewhere) printf("<path class=\"line\" d=\"M%u %uV%uH%u\"/>", (unsigned)(x - STEP), (unsigned)(above % ROWS * HIGH + 19), (unsigned)y, (unsigned)(x - 5));
        printf("<circle class=\"%s\" cx=\"%u\" cy=\"%u\" r=\"5\"/><text x=\"%u\" y=\"%u\">", !depth ? "root" : number16(image, IMAGE_LABELS + 2 * (size_t)s) ? "labelled" : "plain", (unsigned)x, (unsigned)y, (unsigned)(x + 10),
               (unsigned)(y + 4));
        put_words(image, length, s, depth, elsewhere);
        printf("</text>\n");
    }
    printf("</svg>\n");
}
