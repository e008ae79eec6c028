#include "programs.h"

#include <stdio.h>
#include <string.h>

#include "editions.h"
#include "reference.h"

enum { NONE = 65535, LONGEST_IMAGE = 280 + 6 * 512 + 2 * 16 * 512 + 4 * 512 * 256 };

static uint32_t read16(const uint8_t *b, size_t at) { return b[at] | (uint32_t)b[at + 1] << 8; }
static uint32_t read32(const uint8_t *b, size_t at) { return read16(b, at) | read16(b, at + 2) << 16; }

/* An accepted image's parts from its front on: behind 12 bytes of front and 256 classes the labels, in edition 2 the counts and then the lists, the records, the entries. The
 * entries of a state begin behind those of the states before it. */
typedef struct {
    const uint8_t *image;
    uint32_t n;
    size_t records, first[512];
} opened;

static size_t record(const opened *o, uint32_t s) { return o->records + 4 * (size_t)s; }

static void open_image(const uint8_t *image, opened *o) {
    o->image = image;
    o->n = states_of(image);
    o->records = 268 + 2 * (size_t)o->n + 2 * (size_t)labels_behind(image, 268);
    size_t at = record(o, o->n);
    for (uint32_t s = 0; s < o->n; s++) {
        o->first[s] = at;
        at += 4 * (size_t)read16(image, record(o, s) + 2);
    }
}

/* Where a state's own entry for a class stands, or 0: its entries are looked through, each class compared. */
static size_t own_entry(const opened *o, uint32_t s, uint32_t c) {
    uint32_t count = read16(o->image, record(o, s) + 2);
    for (uint32_t j = 0; j < count; j++)
        if (read16(o->image, o->first[s] + 4 * (size_t)j) == c) return o->first[s] + 4 * (size_t)j;
    return 0;
}

void reference_serve(const uint8_t *image, const uint8_t *payload, size_t payload_length, reference_columns *columns) {
    opened o;
    open_image(image, &o);
    memset(columns, 0, sizeof *columns);
    columns->state = read16(image, 4);
    for (size_t i = 0; i < payload_length; i++) {
        uint32_t c = image[12 + payload[i]], server = columns->state;
        columns->ran[columns->state]++;
        /* Along the chain to the first state that stores the class: its entry serves. */
        while (own_entry(&o, server, c) == 0) {
            server = read16(image, record(&o, server));
            columns->hops++;
        }
        columns->served[server]++;
        if (own_entry(&o, columns->state, c)) columns->without_hop++;
        columns->state = read16(image, own_entry(&o, server, c) + 2);
    }
}

size_t reference_served_lines(const uint8_t *image, const uint8_t *payload, size_t payload_length, char *text) {
    reference_columns columns;
    size_t length = 0;
    reference_serve(image, payload, payload_length, &columns);
    for (uint32_t s = 0; s < states_of(image); s++)
        length += (size_t)sprintf(text + length, "%u %llu %llu\n", (unsigned)s, (unsigned long long)columns.served[s], (unsigned long long)columns.ran[s]);
    return length;
}

size_t reference_served_text(const uint8_t *input, size_t length, char *text) {
    if (length > 60000) return (size_t)sprintf(text, "too long\n");
    /* The trailer's end, by the counts as they stand, those of labels too, in 64 bits; an input that ends before it, or inside the counts of labels, is judged whole. */
    size_t image_length = length;
    if (length >= 12 && (!is_second(input) || length >= 268 + 2 * (size_t)states_of(input))) {
        uint64_t end = 280 + 6 * (uint64_t)states_of(input) + 2 * (uint64_t)labels_behind(input, 268) + 4 * (uint64_t)read32(input, 8);
        if (end < length) image_length = (size_t)end;
    }
    uint32_t refused = reference_judge_image(input, image_length);
    if (refused) return (size_t)sprintf(text, "refused %u\n", (unsigned)refused);
    return reference_served_lines(input, input + image_length, length - image_length, text);
}

size_t reference_bounds_text(const uint8_t *input, size_t length, char *text) {
    static uint8_t image[LONGEST_IMAGE];
    if (length > 30000) return (size_t)sprintf(text, "too long\n");
    uint32_t refused = reference_judge_table(input, length);
    if (refused) return (size_t)sprintf(text, "refused %u\n", (unsigned)refused);
    size_t end = (size_t)sprintf(text, "bound depth worst stored defaults bytes\n");
    for (uint32_t bound = 0; bound <= 3; bound++) {
        size_t built = reference_compact(input, length, 0, bound, image, sizeof image).length;
        uint32_t defaults = 0;
        opened o;
        open_image(image, &o);
        for (uint32_t s = 0; s < o.n; s++) defaults += read16(image, record(&o, s)) != NONE;
        end += (size_t)sprintf(text + end, "%u %u %u %u %u %zu\n", (unsigned)bound, (unsigned)read16(image, 6), (unsigned)read16(image, built - 4), (unsigned)read32(image, 8),
                               (unsigned)defaults, built);
    }
    return end;
}
