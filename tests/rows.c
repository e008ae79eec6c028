/* The sampled rows: random tables of 1 to 12 states, of edition 2 in the last files, damaged ones too, and what the independent reading answers and writes in every case, as
 * definitions for the prover. Writes Sample1.antt and so on into the folder that it is given: the same bytes at every run and by every compiler, so
 * no expression takes two random numbers whose order C leaves open. Every image that the reading makes on the way goes to the other edition and back by the archive. */
#include <stdarg.h>
#include <stdio.h>
#include <stdlib.h>
#include <string.h>

#include "reference/reference.h"
#include "support.h"
#include "there_and_back.h"

/* Stands in a text where the next item of a list begins. */
enum { ITEM = 1 };

enum { SEED = 25, FILES = 15, ORDERED_FILES = 2, SECOND_FILES = 2, WHOLE = 7, ORDERED = 6, TOWARD = 3, SECOND = 5, WIDTH = 150, MOST_BYTES = 1000, MOST_IMAGES = 40, MOST_CHANGES = 40 };

typedef struct {
    size_t length;
    uint8_t bytes[MOST_BYTES];
} piece;

/* What differs from a whole table or image: the length, and bytes at some places. */
typedef struct {
    int whole;
    size_t length, changes, at[MOST_CHANGES];
    uint8_t byte[MOST_CHANGES];
} damage;

static const damage WHOLE_ONE = {1, 0, 0, {0}, {0}};

static FILE *file;
static piece table, images[MOST_IMAGES];
static size_t image_count;
static uint32_t order; /* of the forest, in the rows that are made now */
static uint64_t rows, rows_here, broken, cases, bound_decides, order_decides, moved, given[26];

/* A field's text grows here until it is set in lines. */
static char text[1 << 18], case_text[1 << 18];
static size_t used, case_used;

static void append(char *to, size_t *at, const char *words, ...) {
    va_list rest;
    va_start(rest, words);
    *at += (size_t)vsnprintf(to + *at, (1 << 18) - *at, words, rest);
    va_end(rest);
}

#define ADD(...) append(text, &used, __VA_ARGS__)
#define CASE(...) append(case_text, &case_used, __VA_ARGS__)

/* The columns that a text takes: bytes that go on with a character take none. */
static size_t columns(const char *from, const char *to) {
    size_t count = 0;
    for (; from < to; from++) count += (*from & 0xc0) != 0x80;
    return count;
}

/* Prints a field. What is too long for its line goes on in lines below, each beginning with a cons; so does each item, if it is a list of items. */
static void field(const char *name, const char *words, int items) {
    const char *end = words + strlen(words);
    if (!items && columns(words, end) + strlen(name) + 10 <= WIDTH) {
        fprintf(file, "      %s = %s;\n", name, words);
        return;
    }
    fprintf(file, "      %s =\n", name);
    while (words < end) {
        const char *stop = end, *item = strchr(words, ITEM);
        if (item) stop = item;
        if (columns(words, stop) + 11 > WIDTH) {
            for (const char *p = words + 1; columns(words, p) + 10 <= WIDTH; p++)
                if (!strncmp(p, " ∷ ", strlen(" ∷ "))) stop = p;
        }
        fprintf(file, "          %.*s%s\n", (int)(stop - words), words, stop == end ? ";" : "");
        words = stop == end ? end : stop + 1;
    }
}

static void words_of(char *to, size_t *at, const uint8_t *bytes, size_t length) {
    for (size_t i = 0; i < length; i += 2) append(to, at, "%u ∷ ", number16(bytes, i));
    append(to, at, "[]");
}

/* The words of a table or an image, the 256 classes left out that stand behind `before` bytes. */
static void around(const piece *p, size_t before) {
    for (size_t i = 0; i < p->length; i += 2)
        if (i < before || i >= before + 256) ADD("%u ∷ ", number16(p->bytes, i));
    ADD("[]");
}

static void lent(char *to, size_t *at, const damage *d) {
    if (d->whole) {
        append(to, at, "whole");
        return;
    }
    append(to, at, "(damaged %zu (", d->length);
    for (size_t i = 0; i < d->changes; i++) append(to, at, "(%zu, %u) ∷ ", d->at[i], d->byte[i]);
    append(to, at, "[]))");
}

/* The bytes that are lent: cut, or zeros behind them, and then the changes. */
static piece damaged(const piece *from, const damage *d) {
    piece p = *from;
    if (d->whole) return p;
    if (d->length > p.length) memset(p.bytes + p.length, 0, d->length - p.length);
    p.length = d->length;
    for (size_t i = 0; i < d->changes; i++)
        if (d->at[i] < p.length) p.bytes[d->at[i]] = d->byte[i];
    return p;
}

static void change(damage *d, size_t at, uint32_t byte) {
    if (d->changes == MOST_CHANGES) fail("too many changes", cases);
    d->at[d->changes] = at;
    d->byte[d->changes++] = (uint8_t)byte;
}

/* The change of every byte in which two pieces of one length differ. */
static damage difference(const piece *from, const piece *to) {
    damage d = {0, to->length, 0, {0}, {0}};
    for (size_t i = 0; i < to->length; i++)
        if (from->bytes[i] != to->bytes[i]) change(&d, i, to->bytes[i]);
    return d;
}

/* A room before an operation: the numbers below its length, falling. */
static piece room_of(size_t length) {
    piece p = {length, {0}};
    for (size_t i = 0; i < length; i++) p.bytes[i] = (uint8_t)(length - 1 - i);
    return p;
}

/* Behind what was written the room is as it was. */
static void rest_stays(const piece *room, size_t written) {
    piece fresh = room_of(room->length);
    if (memcmp(room->bytes + written, fresh.bytes + written, room->length - written)) fail("the rest of a room", cases);
}

/* An image that the reading made goes there and back; answers its length, and 0 where it made none. */
static size_t shown(reference_built r, const uint8_t *bytes) {
    if (r.length) moved += (uint64_t)there_and_back(bytes, r.length, cases);
    return r.length;
}

/* The number of an image, kept once. */
static size_t kept(const uint8_t *bytes, size_t length) {
    for (size_t i = 0; i < image_count; i++)
        if (images[i].length == length && !memcmp(images[i].bytes, bytes, length)) return i;
    if (image_count == MOST_IMAGES || length > MOST_BYTES || length % 2 || memcmp(bytes + 12, table.bytes + 6, 256)) fail("an image to keep", cases);
    images[image_count].length = length;
    memcpy(images[image_count].bytes, bytes, length);
    return image_count++;
}

static void counted(uint32_t refused) {
    CASE("%c∷ ", ITEM);
    given[refused]++;
    cases++;
}

/* The numbers that compact or write answered, and the image that it wrote. */
static void built_image(reference_built r, const piece *room) {
    CASE("%zu (%u ∷ %u ∷ []) ", room->length, r.refused, r.length);
    rest_stays(room, r.length);
    if (shown(r, room->bytes))
        CASE("(the_image %zu)", kept(room->bytes, r.length));
    else
        CASE("nothing");
    counted(r.refused);
}

static void compacts(uint32_t bound, size_t room_length) {
    piece room = room_of(room_length);
    CASE("compacts %u %u ", order, bound);
    built_image(reference_compact(table.bytes, table.length, order, bound, room.bytes, room.length), &room);
}

static void writes(const uint8_t *list, size_t length, size_t room_length) {
    piece room = room_of(room_length);
    CASE("writes (");
    words_of(case_text, &case_used, list, length + length % 2);
    CASE(") %zu ", length);
    reference_built r = reference_write(table.bytes, table.length, list, length, room.bytes, room.length);
    /* The image of a list that is refused only for defaults not worth their hops is kept as well, to be judged, expanded and scanned. */
    piece before;
    if (r.refused == 25) before.length = shown(reference_image(table.bytes, table.length, list, length, before.bytes, MOST_BYTES), before.bytes);
    if (r.refused == 25 && room.length >= before.length) kept(before.bytes, before.length);
    built_image(r, &room);
}

static void judges(size_t i, const damage *d) {
    piece p = damaged(&images[i], d);
    CASE("judges %zu ", i);
    lent(case_text, &case_used, d);
    uint32_t refused = reference_judge_image(p.bytes, p.length);
    CASE(" %u", refused);
    counted(refused);
}

static void expands(size_t i, const damage *d, size_t room_length) {
    piece p = damaged(&images[i], d), room = room_of(room_length);
    CASE("expands %zu ", i);
    lent(case_text, &case_used, d);
    reference_built r = reference_expand(p.bytes, p.length, room.bytes, room.length);
    CASE(" %zu (%u ∷ %u ∷ []) ", room_length, r.refused, r.length);
    rest_stays(&room, r.length);
    if (r.length) {
        /* An image that was changed and is none the worse for it expands to a table that was changed. */
        room.length = r.length;
        damage e = difference(&table, &room);
        CASE("(the_table ");
        lent(case_text, &case_used, e.changes ? &e : &WHOLE_ONE);
        CASE(")");
    } else {
        CASE("nothing");
    }
    counted(r.refused);
}

static void scans(size_t i, const damage *d, uint32_t state, const uint8_t *payload, size_t length, size_t room_length) {
    piece p = damaged(&images[i], d), room = room_of(room_length);
    CASE("scans %zu ", i);
    lent(case_text, &case_used, d);
    CASE(" %u (", state);
    for (size_t j = 0; j < length; j++) CASE("%u ∷ ", payload[j]);
    reference_scanned r = reference_scan(p.bytes, p.length, state, payload, length, room.bytes, room.length);
    CASE("[]) %zu (%u ∷ %u ∷ %u ∷ %u ∷ %u ∷ []) ", room_length, r.refused, r.taken, r.state, r.reports, r.hops);
    rest_stays(&room, 6 * (size_t)r.reports);
    if (r.reports) {
        CASE("(these (");
        words_of(case_text, &case_used, room.bytes, 6 * (size_t)r.reports);
        CASE("))");
    } else {
        CASE("nothing");
    }
    counted(r.refused);
}

/* Classes in runs, each class below k at least once. */
static void make_runs(uint32_t k) {
    uint8_t *classes = table.bytes + 6;
    memset(classes, (int)below(k), 256);
    for (uint32_t i = 0, at = 0; i < 3 && at < 256; i++) {
        uint32_t from = at + below(90), to = from + 1 + below(60);
        for (at = from; at < to && at < 256; at++) classes[at] = (uint8_t)(classes[at] + i) % k;
    }
    uint32_t first = below(257 - k);
    for (uint32_t c = 0; c < k; c++) classes[first + c] = (uint8_t)c;
}

/* Rows much alike: copies of a few rows, each changed in few places, so that trees are joined often and the bound decides. */
static void make_rows(uint32_t n, uint32_t k) {
    uint8_t *next = table.bytes + 262 + 2 * n;
    uint32_t different = 1 + below(3), changes = below(3);
    for (uint32_t s = 0; s < n; s++) {
        /* Each row is like one before it, near behind it in some tables and anywhere in others. */
        uint32_t like = s < different ? s : different > 1 && below(2) ? s - 1 : below(s);
        for (uint32_t c = 0; c < k; c++) set16(next, 2 * (s * k + c), s < different ? below(n) : number16(next, 2 * (like * k + c)));
        if (s >= different)
            for (uint32_t i = 0; i < changes; i++) {
                uint32_t c = below(k);
                set16(next, 2 * (s * k + c), below(n));
            }
    }
}

static void make_some_table(uint32_t n, uint32_t k) {
    table.length = make_table(table.bytes, n, k, below(257));
    make_runs(k);
    if (below(5)) make_rows(n, k);
    if (reference_judge_table(table.bytes, table.length)) fail("a table to sample", rows);
}

/* Damage to the row's table, where its grounds look. */
static damage table_damage(void) {
    uint32_t n = states_in(table.bytes), k = number16(table.bytes, 2);
    damage d = {0, table.length, 0, {0}, {0}};
    uint32_t few = below(3), half = below(2), byte = below(256), entry = below(n * k);
    switch (below(8)) {
    case 0: d.length = below(6); break;
    case 1: change(&d, 2 * half, 0); break;
    case 2: change(&d, 1 + 2 * half, 2 + byte % 254); break;
    case 3: d.length = table.length - 1 - entry; break;
    case 4: d.length = table.length + 1 + few; break;
    case 5: change(&d, 4, n + few); break;
    case 6: change(&d, 6 + byte, k + few); break;
    default: change(&d, table.length - 2 - 2 * entry, n + few); break;
    }
    if (below(2)) change(&d, table.length - 2, n);
    return d;
}

/* Damage to an image where its grounds look, most often with the check word mended. */
static damage image_damage(size_t i) {
    const piece *whole = &images[i];
    piece p = *whole;
    size_t length = p.length;
    uint32_t n = states_in(p.bytes), k = number16(p.bytes, 2), m = number32(p.bytes, 8);
    size_t entries = length - 12 - 4 * (size_t)m, records = entries - 4 * (size_t)n;
    damage cut = {0, below(2) ? below((uint32_t)length) : length - 1 - below(24), 0, {0}, {0}};
    uint32_t half = below(2), few = below(5), byte = below(256), class = below(k + 1), next = below(n + 1), other = below(n);
    size_t entry = entries + 4 * below(m), record = records + 4 * below(n);
    switch (below(14)) {
    case 0: return cut;
    case 1: p.bytes[below((uint32_t)length)] ^= (uint8_t)(byte | 1); return difference(whole, &p);
    case 2: set16(p.bytes, 2 * (few % 3), half ? 0 : n + k); break;
    case 3: set32(p.bytes, 8, half ? m + few - 2 : k - 1); break;
    case 4: set32(p.bytes, length - 8 - 4 * half, (uint32_t)length + few - 2); break;
    case 5: p.bytes[12 + byte] = (uint8_t)class; break;
    case 6: set16(p.bytes, record, few ? next : 65535); break;
    case 7: set16(p.bytes, record + 2, class + half); break;
    case 8: set16(p.bytes, entry, class); break;
    case 9: set16(p.bytes, entry + 2, next); break;
    case 10: set16(p.bytes, 6, number16(p.bytes, 6) + 1); break;
    case 11: set16(p.bytes, length - 4, number16(p.bytes, length - 4) + 1); break;
    case 12:
        /* Two counts moved against each other keep the sum. */
        set16(p.bytes, record + 2, number16(p.bytes, record + 2) - 1);
        set16(p.bytes, records + 4 * other + 2, number16(p.bytes, records + 4 * other + 2) + 1);
        break;
    default: set16(p.bytes, record, other); break;
    }
    if (below(8)) mend_check_word(p.bytes, length);
    return difference(whole, &p);
}

/* Damage to what edition 2 has of its own, in the row's table or in an image, whose counts begin at a place: the first word, a count, a label, or a cut inside the counts, where a wrong
 * count in sight does not matter. */
static damage second_damage(const piece *whole, size_t counts, int is_image) {
    piece p = *whole;
    uint32_t n = states_in(p.bytes), words = (uint32_t)((is_image ? records_in(p.bytes) : rows_in(p.bytes)) - counts) / 2, kind = below(9), state = below(n), word = below(words);
    uint32_t few = below(3), half = below(2), behind = words > n ? n + below(words - n) : word;
    size_t count = counts + 2 * (size_t)state, label = counts + 2 * (size_t)behind;
    damage cut = {0, counts + 2 * (size_t)n - few, 0, {0}, {0}};
    switch (kind) {
    case 0: set16(p.bytes, 0, n); break;
    case 1: set16(p.bytes, 0, half ? 32768 : 33281 + few); break;
    case 2: set16(p.bytes, count, 17 + few); break;
    case 3: set16(p.bytes, count, number16(p.bytes, count) + 1); break;
    case 4: set16(p.bytes, label, 0); break;
    case 5: set16(p.bytes, label, number16(p.bytes, label - 2)); break;
    case 6: set16(p.bytes, label, number16(p.bytes, label) + 1); break;
    case 7: change(&cut, count, 17 + few); return cut;
    default: change(&cut, count + 1, 1); return cut;
    }
    if (is_image && below(6)) mend_check_word(p.bytes, p.length);
    return difference(whole, &p);
}

/* A list of defaults, damaged in some cases; answers its length. */
static size_t some_list(uint8_t *list, uint32_t n, int spoil) {
    memset(list, 0, 64);
    make_defaults(list, n, 64 + below(193));
    if (!spoil) return 2 * n;
    uint32_t state = below(n), half = below(2);
    switch (below(4)) {
    case 0: return below(2) ? 2 * n - 1 - half : 2 * n + 1 + half;
    case 1: set16(list, 2 * state, n + half); break;
    case 2: set16(list, 2 * state, 65534); break;
    default:
        for (uint32_t s = 0; s < n; s++) set16(list, 2 * s, below(n));
    }
    return 2 * n;
}

/* The row as a record. */
static void print_row(const piece *plain, const damage *d, uint32_t judged) {
    fprintf(file, rows_here++ ? "    ∷ record {\n" : "    record {\n");
    used = 0;
    for (size_t i = 0; i < 256;) {
        size_t from = i;
        while (i < 256 && plain->bytes[6 + i] == plain->bytes[6 + from]) i++;
        ADD("(%zu, %u) ∷ ", i - from, plain->bytes[6 + from]);
    }
    ADD("[]");
    field("runs", text, 0);
    used = 0;
    around(plain, 6);
    field("table", text, 0);
    used = 0;
    lent(text, &used, d);
    if (d->whole)
        field("lent", text, 0);
    else {
        text[used - 1] = 0;
        field("lent", text + 1, 0);
    }
    used = 0;
    ADD("%u", judged);
    field("judged", text, 0);
    used = 0;
    for (size_t i = 0; i < image_count; i++) {
        ADD("(");
        around(&images[i], 12);
        ADD(")%c∷ ", ITEM);
    }
    ADD("[]");
    field("images", text, image_count > 0);
    CASE("[]");
    field("cases", case_text, 1);
    fprintf(file, "    }\n");
}

static void begin_row(void) {
    image_count = 0;
    case_used = 0;
    case_text[0] = 0;
    rows++;
}

/* Whether compact in an order gives another image than in order 0. */
static int decides(uint32_t in_order, uint32_t bound) {
    piece by_order, by_pairs;
    by_order.length = shown(reference_compact(table.bytes, table.length, in_order, bound, by_order.bytes, MOST_BYTES), by_order.bytes);
    by_pairs.length = shown(reference_compact(table.bytes, table.length, 0, bound, by_pairs.bytes, MOST_BYTES), by_pairs.bytes);
    return by_order.length != by_pairs.length || memcmp(by_order.bytes, by_pairs.bytes, by_order.length);
}

/* Compact with a room of the length that it takes or a longer one, or with a shorter one. */
static void some_compact(uint32_t bound, int short_room) {
    piece trial, free_one;
    size_t length = shown(reference_compact(table.bytes, table.length, order, 65535, free_one.bytes, MOST_BYTES), free_one.bytes);
    free_one.length = length;
    length = shown(reference_compact(table.bytes, table.length, order, bound, trial.bytes, MOST_BYTES), trial.bytes);
    bound_decides += bound > 0 && (length != free_one.length || memcmp(trial.bytes, free_one.bytes, length));
    order_decides += order > 0 && decides(order, bound);
    compacts(bound, short_room ? length - 1 - (below(2) ? 0 : below((uint32_t)length)) : length + (below(2) ? 0 : below(9)));
}

static void some_write(uint32_t n, int spoil, int short_room) {
    uint8_t list[64];
    piece trial;
    size_t bytes = some_list(list, n, spoil);
    /* Rooms are as for a list that is taken, so that 25 is seen before 16. */
    size_t length = shown(reference_image(table.bytes, table.length, list, bytes, trial.bytes, MOST_BYTES), trial.bytes);
    if (!length)
        writes(list, bytes, below(2) ? MOST_BYTES / 2 : below(9));
    else
        writes(list, bytes, short_room ? length - 1 - (below(2) ? 0 : below((uint32_t)length)) : length + (below(2) ? 0 : below(9)));
    /* What is left of a list that is 25, where something is, in a room that it fills. */
    if (!length || !leave_worthy(list, table.bytes)) return;
    length = shown(reference_write(table.bytes, table.length, list, bytes, trial.bytes, MOST_BYTES), trial.bytes);
    for (uint32_t s = 0; s < n; s++)
        if (number16(list, 2 * s) != 65535) {
            writes(list, bytes, length);
            return;
        }
}

static void some_judge(void) {
    size_t i = below((uint32_t)image_count);
    damage d = image_damage(i);
    judges(i, &d);
}

static void some_expand(void) {
    size_t i = below((uint32_t)image_count);
    damage d = image_damage(i);
    switch (below(6)) {
    case 0: expands(i, &WHOLE_ONE, table.length - 1); break;
    case 1: expands(i, &WHOLE_ONE, below((uint32_t)table.length)); break;
    case 2: expands(i, &d, table.length); break;
    default: expands(i, &WHOLE_ONE, table.length + (below(2) ? 0 : below(9)));
    }
}

/* A scan with room for all reports, for one byte less, for none, of a state that is not there, or of a damaged image. */
static void some_scan(uint32_t n) {
    uint8_t payload[16];
    piece trial;
    size_t i = below((uint32_t)image_count), bytes = below(12) ? 1 + below(8) : 0;
    for (size_t j = 0; j < bytes; j++) payload[j] = (uint8_t)below(256);
    uint32_t state = below(n);
    size_t exact = 6 * (size_t)reference_scan(images[i].bytes, images[i].length, state, payload, bytes, trial.bytes, MOST_BYTES).reports;
    damage d = image_damage(i);
    switch (below(8)) {
    case 0: scans(i, &WHOLE_ONE, n + (below(2) ? 0 : below(70000)), payload, bytes, exact); break;
    case 1: scans(i, &d, state, payload, bytes, exact); break;
    case 2: scans(i, &WHOLE_ONE, state, payload, bytes, below(6)); break;
    case 3: scans(i, &WHOLE_ONE, state, payload, bytes, exact + 1 + below(12)); break;
    case 4: scans(i, &WHOLE_ONE, state, payload, bytes, exact); break;
    default: scans(i, &WHOLE_ONE, state, payload, bytes, exact ? exact - 1 - (below(2) ? 0 : below((uint32_t)exact)) : below(3));
    }
}

/* A row with a whole table: all bounds and all operations, or two bounds and one operation more. */
static void whole_row(uint32_t n, uint32_t most_classes, int all) {
    begin_row();
    uint32_t k = 1 + below(most_classes);
    make_some_table(n, k);
    const uint32_t bounds[] = {1, 2, 3, 0, 65535, 4 + below(8)};
    if (all) {
        for (int i = 0; i < 6; i++) some_compact(bounds[i], 0);
        some_compact(bounds[below(6)], 1);
        some_write(n, 0, 0);
        some_write(n, 0, 1);
        some_write(n, 1, 0);
        some_judge();
        some_expand();
        some_scan(n);
    } else {
        some_compact(bounds[below(3)], 0);
        int short_room = below(4) == 0;
        some_compact(bounds[below(6)], short_room);
        switch (below(7)) {
        case 0: some_write(n, 0, 0); break;
        case 1: some_write(n, (int)below(2), 1); break;
        case 2: some_judge(); break;
        case 3: some_judge(); break;
        case 4: some_expand(); break;
        default: some_scan(n);
        }
    }
    print_row(&table, &WHOLE_ONE, 0);
}

static void broken_row(void) {
    begin_row();
    broken++;
    uint32_t n = 1 + below(6), k = 1 + below(4), bound = below(4);
    make_some_table(n, k);
    piece plain = table;
    damage d = table_damage();
    table = damaged(&plain, &d);
    uint32_t judged = reference_judge_table(table.bytes, table.length);
    given[judged]++;
    compacts(bound, below(2) ? 400 : below(20));
    uint8_t list[64];
    size_t bytes = some_list(list, n, (int)below(2));
    writes(list, bytes, below(2) ? 400 : below(20));
    print_row(&plain, &d, judged);
}

/* A row of the orders 1 and 2, on a table on which one of them decides, and of an order that is none. */
static void ordered_row(uint32_t n, uint32_t deciding) {
    begin_row();
    uint32_t bound = 2 + below(3);
    do make_some_table(n, 2 + below(3));
    while (!decides(deciding, bound));
    for (order = 1; order <= 2; order++) some_compact(bound, 0);
    uint32_t above = below(70000);
    order = below(2) ? 4 : 4 + above;
    compacts(bound, below(2) ? 400 : 0);
    order = 0;
    print_row(&table, &WHOLE_ONE, 0);
}

/* A row of order 3, on a table in levels with a chain of two defaults or more, some with a state that no payload reaches; and a scan of its image. */
static void toward_row(uint32_t n, uint32_t reached, uint32_t wide) {
    begin_row();
    uint32_t bound = below(4);
    piece trial;
    do {
        uint32_t k = 3 + below(2);
        table.length = make_levels(table.bytes, n, k, 150 + below(80), reached, wide);
        make_runs(k);
        shown(reference_compact(table.bytes, table.length, 3, bound, trial.bytes, MOST_BYTES), trial.bytes);
    } while (number16(trial.bytes, 6) < 2 || !decides(3, bound));
    order = 3;
    some_compact(bound, 0);
    some_compact(bound ? 0 : 65535, 1);
    order = 0;
    some_scan(n);
    print_row(&table, &WHOLE_ONE, 0);
}

/* An order that is none, of a table that is refused: 18 comes first. */
static void broken_ordered_row(void) {
    begin_row();
    broken++;
    make_some_table(2, 2);
    piece plain = table;
    damage d = table_damage();
    table = damaged(&plain, &d);
    uint32_t judged = reference_judge_table(table.bytes, table.length);
    given[judged]++;
    for (order = 1; order <= 4; order++) compacts(2, 400);
    order = 0;
    print_row(&plain, &d, judged);
}

/* A row of edition 2: compact in every order, once in a room that is too short, a list of defaults that is taken and one at random, judges of damaged images, an expansion, and scans in
 * rooms for all reports and for fewer. */
static void second_row(uint32_t n, uint32_t most) {
    begin_row();
    uint32_t k = 1 + below(4), bound = 1 + below(3);
    make_some_table(n, k);
    table.length = make_second(table.bytes, table.length, most);
    for (order = 0; order <= 3; order++) some_compact(bound, 0);
    order = 3 * below(2);
    some_compact(bound, 1);
    order = 0;
    some_write(n, 0, 0);
    some_write(n, (int)below(2), 1);
    some_judge();
    for (int i = 0; i < 3; i++) {
        size_t number = below((uint32_t)image_count);
        damage d = second_damage(&images[number], 268, 1);
        judges(number, &d);
    }
    some_expand();
    size_t number = below((uint32_t)image_count);
    damage d = second_damage(&images[number], 268, 1);
    expands(number, &d, table.length);
    for (int i = 0; i < 3; i++) some_scan(n);
    print_row(&table, &WHOLE_ONE, 0);
}

/* A table of edition 2 that is refused, or is another table for its damage. */
static void broken_second_row(void) {
    begin_row();
    broken++;
    uint32_t n = 1 + below(4), k = 1 + below(3), own = below(5);
    make_some_table(n, k);
    table.length = make_second(table.bytes, table.length, 16);
    piece plain = table;
    damage d = own ? second_damage(&plain, 262, 0) : table_damage();
    table = damaged(&plain, &d);
    uint32_t judged = reference_judge_table(table.bytes, table.length);
    given[judged]++;
    uint8_t list[64];
    size_t bytes = some_list(list, n, 0);
    writes(list, bytes, below(2) ? 500 : below(20));
    if (!image_count) compacts(below(4), 400);
    print_row(&plain, &d, judged);
}

static void begin_file(const char *folder, int number) {
    char name[400];
    snprintf(name, sizeof name, "%s/Sample%d.antt", folder, number);
    file = fopen(name, "w");
    if (!file) {
        perror(name);
        exit(3);
    }
    rows_here = 0;
    fprintf(file, "-- Generated by tests/rows: random rows, with the numbers and bytes of the independent implementation in tests/reference.\n"
                  "use Rattle.std.specs.Prelude.{List, [], ◌∷◌}\n"
                  "use Rattle.sampled.specs.Row.{whole, damaged, nothing, the_table, the_image, these, compacts, writes, judges, expands, scans, Row}\n"
                  "\n"
                  "-- The rows of this file.\n"
                  "abbrev pub rows : List Row\n"
                  "rows =\n");
}

int main(int words, char **word) {
    if (words != 2) return 2;
    /* Small tables often; the last of each file has up to 9 or up to 12 states. */
    static const uint32_t states[2][WHOLE] = {{3, 4, 5, 6, 7, 4, 10}, {1, 2, 3, 4, 5, 6, 8}};
    seed(SEED);
    for (int f = 1; f <= FILES; f++) {
        int few = f % 2;
        begin_file(word[1], f);
        for (int i = 0; i < WHOLE - 1; i++) whole_row(states[few][i], 6, !few && i == f / 2 % (WHOLE - 1));
        whole_row(states[few][WHOLE - 1] + below(few ? 2 : 3), 5, 0);
        broken_row();
        fprintf(file, "    ∷ []\n");
        if (fclose(file)) fail("a file could not be written", (uint64_t)f);
    }
    /* The orders 1 to 3, of up to 8 states: the prover takes long for the first two. */
    static const uint32_t ordered[ORDERED] = {4, 5, 5, 6, 6, 7}, toward[TOWARD] = {5, 7, 8};
    for (int f = FILES + 1; f <= FILES + ORDERED_FILES; f++) {
        begin_file(word[1], f);
        for (uint32_t i = 0; i < ORDERED; i++) ordered_row(ordered[i] + below(2) * (i == ORDERED - 1), 1 + i % 2);
        for (uint32_t i = 0; i < TOWARD; i++) toward_row(toward[i], toward[i] - i % 2, 1 + i);
        broken_ordered_row();
        fprintf(file, "    ∷ []\n");
        if (fclose(file)) fail("a file could not be written", (uint64_t)f);
    }
    /* Edition 2, of up to 6 states: lists of any length, of at most two labels, and none. */
    static const uint32_t second[SECOND_FILES][SECOND] = {{1, 2, 4, 5, 6}, {2, 3, 3, 5, 6}}, most[SECOND] = {16, 16, 0, 16, 2};
    for (int f = 0; f < SECOND_FILES; f++) {
        begin_file(word[1], FILES + ORDERED_FILES + 1 + f);
        for (uint32_t i = 0; i < SECOND; i++) second_row(second[f][i], most[i]);
        for (int i = 0; i < 3; i++) broken_second_row();
        fprintf(file, "    ∷ []\n");
        if (fclose(file)) fail("a file could not be written", (uint64_t)f);
    }
    printf("rows: %llu tables, %llu of them damaged, %llu cases; a bound above 0 decides in %llu, an order above 0 in %llu; %llu images there and back\n  given  ", (unsigned long long)rows,
           (unsigned long long)broken, (unsigned long long)cases, (unsigned long long)bound_decides, (unsigned long long)order_decides, (unsigned long long)moved);
    for (int r = 0; r < 26; r++)
        if (given[r]) printf(" %d:%llu", r, (unsigned long long)given[r]);
    printf("\n");
    return 0;
}
