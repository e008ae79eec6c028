#include "report.h"

#include <stdio.h>
#include <string.h>

#include "drawing.h"
#include "layout.h"
#include "served.h"
#include "status.h"

static const char style[] =
    ":root { color-scheme: light dark; --ink: #1c1c1c; --paper: #ffffff; --line: #767676; --bar: #1f5fa8; --mark: #a34300 }\n"
    "@media (prefers-color-scheme: dark) { :root { --ink: #e8e8e8; --paper: #16181c; --line: #8f8f8f; --bar: #7db4f0; --mark: #ffb066 } }\n"
    "body { color: var(--ink); background: var(--paper); font: 16px/1.5 sans-serif; margin: 2em auto; max-width: 60em; padding: 0 1em }\n"
    "table { border-collapse: collapse; margin: 1em 0 } caption { text-align: left; font-weight: bold; white-space: nowrap } th, td { border: 1px solid var(--line); padding: 0.15em 0.6em; text-align: right } th:first-child { text-align: left }\n"
    ".wide { overflow-x: auto } .bars, .places { max-width: 100%; height: auto } svg text { fill: var(--ink); font: 13px sans-serif } .state { font-weight: bold } .bar { fill: var(--bar) } .line { stroke: var(--line); fill: none }\n"
    ".root { fill: var(--ink) } .plain { fill: var(--paper); stroke: var(--ink) } .labelled { fill: var(--mark); stroke: var(--ink) }\n";

/* What the payload's reports come to: how many each label had, and how many stood where, in bars that get wider as the payload gets longer; the first reports one by one. */
enum { BARS = 128, FIRST = 50 };
static uint64_t label_times[65536], label_first[65536], width = 1, first_offset[FIRST];
static uint32_t bars[BARS], first_label[FIRST], firsts;

static void widen_to(uint64_t offset) {
    while (offset >= BARS * width) {
        for (uint32_t i = 0; i < BARS; i++) bars[i] = i < BARS / 2 ? bars[2 * i] + bars[2 * i + 1] : 0;
        width *= 2;
    }
}

static void note_report(uint64_t offset, uint32_t label) {
    widen_to(offset);
    bars[offset / width]++;
    if (!label_times[label]++) label_first[label] = offset;
    if (firsts == FIRST) return;
    first_offset[firsts] = offset;
    first_label[firsts++] = label;
}

/* A table of two columns begins; its rows; its end is the same for all. */
static void begin_table(const char *caption, const char *one, const char *other) {
    printf("<table>\n<caption>%s</caption>\n<thead><tr><th scope=\"col\">%s</th><th scope=\"col\">%s</th></tr></thead>\n<tbody>\n", caption, one, other);
}
static void put_row(const char *words, uint64_t number) { printf("<tr><th scope=\"row\">%s</th><td>%llu</td></tr>\n", words, (unsigned long long)number); }
static void end_table(void) { printf("</tbody>\n</table>\n"); }

static uint32_t default_of(const row_counts *c, uint32_t s) { return number16(c->image, records_at(c->image, c->length) + 4 * (size_t)s); }
static uint32_t entries_of(const row_counts *c, uint32_t s) { return number16(c->image, records_at(c->image, c->length) + 4 * (size_t)s + 2); }

static void put_facts(const row_counts *c) {
    const uint8_t *image = c->image;
    uint32_t n = states_of(image), k = number16(image, 2), roots = 0, labels = labels_of(image, IMAGE_LABELS);
    for (uint32_t s = 0; s < n; s++) roots += default_of(c, s) == NO_STATE;
    printf("<h2>What it is</h2>\n");
    begin_table("The image in numbers", "what", "number");
    put_row("edition", edition_of(image));
    put_row("states", n);
    put_row("classes", k);
    put_row("start state", number16(image, 4));
    put_row("labels", labels);
    put_row("entries", number32(image, 8));
    put_row("states without a default", roots);
    put_row("states with a default", n - roots);
    put_row("depth, the longest chain of defaults", number16(image, 6));
    put_row("worst, the most hops of a byte", number16(image, c->length - 4));
    put_row("bytes", c->length);
    put_row("bytes of its plain table", 262 + 2 * (uint64_t)n + (edition_of(image) == 2 ? 2 * (uint64_t)labels : 0) + 2 * (uint64_t)n * k);
    end_table();
}

/* A spread: its bars, and the same as a table. Rows without a number are left out. */
static void put_spread(const char *heading, const char *caption, const char *one, const char *other, const char (*words)[32], const uint64_t *numbers, uint32_t count) {
    static char kept[512][32];
    static uint64_t of[512];
    uint32_t left = 0;
    for (uint32_t i = 0; i < count; i++) {
        if (!numbers[i]) continue;
        memcpy(kept[left], words[i], sizeof *kept);
        of[left++] = numbers[i];
    }
    printf("<h3>%s</h3>\n", heading);
    draw_bars((const char(*)[32])kept, of, left);
    begin_table(caption, one, other);
    for (uint32_t i = 0; i < left; i++) put_row(kept[i], of[i]);
    end_table();
}

static void put_spreads(const row_counts *c) {
    static char words[512][32];
    static uint64_t numbers[512];
    uint32_t n = states_of(c->image), worst = number16(c->image, c->length - 4);
    memset(numbers, 0, sizeof numbers);
    for (uint32_t h = 0; h <= worst; h++) snprintf(words[h], sizeof *words, "%u hop%s", (unsigned)h, h == 1 ? "" : "s");
    for (uint32_t s = 0; s < n; s++)
        for (uint32_t x = 0; x < 256; x++) numbers[hops_of(s, c->image[12 + x])]++;
    printf("<h2>How hops and entries are spread</h2>\n");
    put_spread("Hops", "Of all pairs of a state and a byte, how many cost so many hops", "hops", "pairs", (const char(*)[32])words, numbers, worst + 1);
    memset(numbers, 0, sizeof numbers);
    /* Ranges that double: 0, 1, 2 to 3, 4 to 7 and so on to 256. */
    for (uint32_t i = 0; i < 10; i++) snprintf(words[i], sizeof *words, i == 0 ? "%u entries" : i == 1 ? "%u entry" : "%u to %u entries", i ? 1u << (i - 1) : 0u, (1u << i) - 1);
    for (uint32_t s = 0; s < n; s++) {
        uint32_t range = 0;
        while (entries_of(c, s) >> range) range++;
        numbers[range]++;
    }
    put_spread("Entries", "How many states store so many entries", "entries", "states", (const char(*)[32])words, numbers, 10);
}

/* Each state in a row, for those who cannot see the drawing, and for a search in the page. */
static void put_states(const row_counts *c, int with_payload) {
    printf("<details>\n<summary>The states as a table</summary>\n<table>\n<caption>Each state, what it falls back to and what it stores</caption>\n<thead><tr><th scope=\"col\">state</th><th scope=\"col\">falls to</th><th scope=\"col\">entries</th>%s</tr></thead>\n<tbody>\n",
           with_payload ? "<th scope=\"col\">served</th><th scope=\"col\">ran</th>" : "");
    for (uint32_t s = 0; s < states_of(c->image); s++) {
        printf("<tr><th scope=\"row\">%u</th>", (unsigned)s);
        if (default_of(c, s) == NO_STATE) printf("<td>none</td>");
        else printf("<td>%u</td>", (unsigned)default_of(c, s));
        printf("<td>%u</td>", (unsigned)entries_of(c, s));
        if (with_payload) printf("<td>%llu</td><td>%llu</td>", (unsigned long long)c->served[s], (unsigned long long)c->running[s]);
        printf("</tr>\n");
    }
    printf("</tbody>\n</table>\n</details>\n");
}

static void put_payload(const row_counts *c, const char *payload) {
    static char words[512][32];
    static uint64_t numbers[512];
    uint16_t states[512];
    uint32_t n = states_of(c->image), shown = n < 20 ? n : 20, used = BARS;
    printf("<h2>What the payload did: ");
    put_name(payload);
    printf("</h2>\n");
    begin_table("The payload in numbers", "what", "number");
    put_row("bytes", c->bytes);
    put_row("bytes without a hop", c->without_hop);
    put_row("hops", c->hops);
    put_row("reports", c->reports);
    end_table();
    by_work(states, n, 1);
    for (uint32_t i = 0; i < shown; i++) {
        snprintf(words[i], sizeof *words, "state %u", (unsigned)states[i]);
        numbers[i] = c->served[states[i]];
    }
    put_spread("Which rows served", "The states that served most, up to 20", "state", "bytes served", (const char(*)[32])words, numbers, shown);
    printf("<h3>Where it was reported</h3>\n");
    if (!c->reports) {
        printf("<p>Nowhere.</p>\n");
        return;
    }
    widen_to(c->bytes - 1);
    while (used > 1 && (used - 1) * width >= c->bytes) used--;
    draw_places(bars, used, width);
    printf("<table>\n<caption>Each label, how often it was reported and where first</caption>\n<thead><tr><th scope=\"col\">label</th><th scope=\"col\">reports</th><th scope=\"col\">first offset</th></tr></thead>\n<tbody>\n");
    for (uint32_t label = 0; label < 65536; label++)
        if (label_times[label]) printf("<tr><th scope=\"row\">%u</th><td>%llu</td><td>%llu</td></tr>\n", (unsigned)label, (unsigned long long)label_times[label], (unsigned long long)label_first[label]);
    end_table();
    begin_table("The first reports, up to 50", "offset", "label");
    for (uint32_t i = 0; i < firsts; i++) printf("<tr><th scope=\"row\">%llu</th><td>%u</td></tr>\n", (unsigned long long)first_offset[i], (unsigned)first_label[i]);
    end_table();
}

int report(const char *image, const char *payload) {
    row_counts counts;
    int status = count_rows(image, payload, &counts, note_report);
    if (status != DONE) return status;
    printf("<!DOCTYPE html>\n<html lang=\"en\" xmlns=\"http://www.w3.org/1999/xhtml\">\n<head>\n<meta charset=\"utf-8\"/>\n<meta name=\"viewport\" content=\"width=device-width, initial-scale=1\"/>\n<title>Image ");
    put_name(image);
    printf("</title>\n<style>\n%s</style>\n</head>\n<body>\n<main>\n<h1>Image ", style);
    put_name(image);
    printf("</h1>\n");
    put_facts(&counts);
    printf("<h2>Which state falls back to which</h2>\n<p>A filled circle is a state without a default, a coloured one a state with a label.</p>\n<div class=\"wide\" tabindex=\"0\" role=\"region\" aria-label=\"The forest, to be moved sideways\">\n");
    draw_forest(counts.image, counts.length);
    printf("</div>\n");
    put_states(&counts, payload != NULL);
    put_spreads(&counts);
    if (payload) put_payload(&counts, payload);
    printf("</main>\n</body>\n</html>\n");
    return DONE;
}
