/* Patches in C: where each state's entries begin and end, in the image or in the patch, is found once; then 11 to 13 are those of an image, and a scan looks up as one of an image does. */
#include "plain.h"

/* Of each state its default and its entries, patched. */
typedef struct {
    uint16_t defaults[512];
    const uint8_t *begins[512], *ends[512];
} view;

/* Where the records of an accepted image begin, and behind them its entries: from its back. */
static const uint8_t *entries_of(const uint8_t *image, size_t length) { return image + length - 12 - 4 * (size_t)plain_number32(image + 8); }

static void open_view(const uint8_t *image, size_t length, const uint8_t *patch, view *v) {
    size_t n = plain_states(image), p = plain_number16(patch);
    const uint8_t *entry = entries_of(image, length), *record = entry - 4 * n;
    for (size_t s = 0; s < n; s++, record += 4) {
        v->defaults[s] = plain_number16(record);
        v->begins[s] = entry;
        v->ends[s] = entry += 4 * plain_number16(record + 2);
    }
    record = patch + 10 + 2 * p;
    entry = record + 4 * p;
    for (size_t i = 0; i < p; i++, record += 4) {
        size_t s = plain_number16(patch + 10 + 2 * i);
        v->defaults[s] = plain_number16(record);
        v->begins[s] = entry;
        v->ends[s] = entry += 4 * plain_number16(record + 2);
    }
}

/* Ground 22. */
static int shape_bad(const uint8_t *patch, size_t length) {
    if (length < 22) return 1;
    uint64_t p = plain_number16(patch), q = plain_number32(patch + 6);
    if (p < 1 || p > 64 || length != 22 + 6 * p + 4 * q) return 1;
    if (plain_number32(patch + length - 12) != 4 * q + 12 || plain_number32(patch + length - 8) != length) return 1;
    return plain_number16(patch + length - 2) != plain_check_word(patch, length - 2);
}

/* Grounds 24 and 8, and then 9 and 10 of the patch's entries. */
static uint32_t lists_bad(const uint8_t *patch, size_t n, size_t k) {
    size_t p = plain_number16(patch), q = plain_number32(patch + 6), sum = 0;
    const uint8_t *records = patch + 10 + 2 * p, *entries = records + 4 * p, *entry = entries;
    int32_t last = -1;
    int bad = 0;
    for (size_t i = 0; i < p; i++) {
        int32_t s = plain_number16(patch + 10 + 2 * i);
        if (s <= last || s >= (int32_t)n) return 24;
        last = s;
    }
    for (size_t i = 0; i < p; i++) {
        size_t d = plain_number16(records + 4 * i), count = plain_number16(records + 4 * i + 2);
        bad |= count > k || (d == 65535 ? count != k : d >= n);
        sum += count;
    }
    if (bad || sum != q) return 8;
    for (size_t i = 0; i < p; i++) {
        last = -1;
        for (size_t left = plain_number16(records + 4 * i + 2); left; left--, entry += 4) {
            int32_t class = plain_number16(entry);
            if (class <= last) return 9;
            last = class;
        }
        if (last >= (int32_t)k) return 9;
    }
    for (size_t j = 0; j < q; j++)
        if (plain_number16(entries + 4 * j + 2) >= n) return 10;
    return 0;
}

uint32_t plain_judge_patch(const uint8_t *image, size_t length, const uint8_t *patch, size_t patch_length) {
    size_t n = plain_states(image), k = plain_number16(image + 2);
    if (shape_bad(patch, patch_length)) return 22;
    if (plain_number16(patch + patch_length - 4) != plain_number16(image + length - 2)) return 23;
    uint32_t refused = lists_bad(patch, n, k), worst;
    if (refused) return refused;
    view v;
    plain_chains chains;
    open_view(image, length, patch, &v);
    if (!plain_order(v.defaults, n, &chains)) return 11;
    if (plain_sweep(v.begins, v.ends, &chains, n, k, &worst)) return 12;
    return plain_number16(patch + 2) != chains.depth || plain_number16(patch + 4) != worst ? 13 : 0;
}

/* All before the records is copied as it stands, and then between two listed states the records and the entries of the image. */
kamordast_built plain_apply(const uint8_t *image, size_t length, const uint8_t *patch, size_t patch_length, uint8_t *room, size_t room_length) {
    size_t n = plain_states(image), p = plain_number16(patch), m = plain_number32(image + 8) + plain_number32(patch + 6);
    const uint8_t *from = entries_of(image, length), *records = from - 4 * n, *listed = patch + 10 + 2 * p, *new_entry = listed + 4 * p;
    for (size_t i = 0; i < p; i++) m -= plain_number16(records + 4 * plain_number16(patch + 10 + 2 * i) + 2);
    size_t before = (size_t)(records - image), whole = before + 4 * n + 4 * m + 12;
    (void)patch_length;
    if (room_length < whole) return (kamordast_built){16, 0};
    memcpy(room, image, before + 4 * n);
    memcpy(room + 6, patch + 2, 2);
    plain_put32(room + 8, (uint32_t)m);
    uint8_t *entry = room + before + 4 * n;
    const uint8_t *at = from;
    for (size_t i = 0, s = 0; i < p; i++, s++) {
        size_t next = plain_number16(patch + 10 + 2 * i), own = 4 * plain_number16(listed + 4 * i + 2);
        for (; s < next; s++) at += 4 * plain_number16(records + 4 * s + 2);
        memcpy(entry, from, (size_t)(at - from));
        entry += at - from;
        from = at += 4 * plain_number16(records + 4 * next + 2);
        memcpy(entry, new_entry, own);
        entry += own;
        new_entry += own;
        memcpy(room + before + 4 * next, listed + 4 * i, 4);
    }
    size_t rest = (size_t)(image + length - 12 - from);
    memcpy(entry, from, rest);
    entry += rest;
    plain_put32(entry, (uint32_t)(4 * m + 12));
    plain_put32(entry + 4, (uint32_t)whole);
    memcpy(entry + 8, patch + 4, 2);
    plain_put16(entry + 10, plain_check_word(room, whole - 2));
    return (kamordast_built){0, (uint32_t)whole};
}

/* An entry at most eight before the first whose class is not below the one asked. */
static const uint8_t *near(const uint8_t *entry, size_t count, uint32_t class) {
    for (size_t half = count / 2; count > 8; count -= half, half = count / 2) entry += plain_number16(entry + 4 * half) <= class ? 4 * half : 0;
    return entry;
}

EACH_EDITION kamordast_scanned scanned(const uint8_t *image, size_t length, const uint8_t *patch, uint32_t state, const uint8_t *payload, size_t bytes, uint8_t *room, size_t room_length, int second) {
    size_t n = plain_states(image), k = plain_number16(image + 2);
    const uint8_t *lists = image + 268 + 2 * n;
    uint32_t most = (uint32_t)(room_length / 6);
    uint16_t places[513];
    view v;
    kamordast_scanned run = {0, 0, state, 0, 0};
    if (second) plain_places(image + 268, n, places);
    open_view(image, length, patch, &v);
    for (size_t i = 0; i < bytes; i++) {
        uint32_t class = image[12 + payload[i]], s = run.state, hops = run.hops, target;
        for (;;) {
            const uint8_t *entry = v.begins[s], *end = v.ends[s];
            size_t count = (size_t)(end - entry) / 4;
            if (count == k) {
                target = plain_number16(entry + 4 * class + 2);
                break;
            }
            if (count > 8) entry = near(entry, count, class);
            while (entry < end && plain_number16(entry) < class) entry += 4;
            if (entry < end && plain_number16(entry) == class) {
                target = plain_number16(entry + 2);
                break;
            }
            s = v.defaults[s];
            hops++;
        }
        uint32_t label = plain_number16(image + 268 + 2 * target);
        if (label && second) {
            if (most - run.reports < label) return run;
            plain_put_reports(room + 6 * run.reports, i, lists + 2 * places[target], label);
            run.reports += label;
        } else if (label) {
            if (most <= run.reports) return run;
            uint8_t *report = room + 6 * run.reports++;
            plain_put32(report, (uint32_t)i);
            plain_put16(report + 4, label);
        }
        run.state = target;
        run.hops = hops;
        run.taken++;
    }
    return run;
}

kamordast_scanned plain_scan_patched(const uint8_t *image, size_t length, const uint8_t *patch, size_t patch_length, uint32_t state, const uint8_t *payload, size_t bytes, uint8_t *room, size_t room_length) {
    (void)patch_length;
    return scanned(image, length, patch, state, payload, bytes, room, room_length, 0);
}

kamordast_scanned plain_second_scan_patched(const uint8_t *image, size_t length, const uint8_t *patch, size_t patch_length, uint32_t state, const uint8_t *payload, size_t bytes, uint8_t *room, size_t room_length) {
    (void)patch_length;
    return scanned(image, length, patch, state, payload, bytes, room, room_length, 1);
}
