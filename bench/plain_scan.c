/* The tuned walk of an image in C: where each state's entries begin is found once, a root is looked up directly, other states are searched by halving
 * while more than eight entries are left and then in order. In edition 2 where each state's labels begin is found once too. */
#include "plain.h"

/* An entry at most eight before the first whose class is not below the one asked. */
static const uint8_t *near(const uint8_t *entry, uint32_t count, uint32_t class) {
    for (uint32_t half = count / 2; count > 8; count -= half, half = count / 2) entry += plain_number16(entry + 4 * half) <= class ? 4 * half : 0;
    return entry;
}

EACH_EDITION kamordast_scanned scanned(const uint8_t *image, size_t length, uint32_t state, const uint8_t *payload, size_t bytes, uint8_t *room, size_t room_length, int second) {
    uint32_t n = second ? (uint32_t)plain_states(image) : plain_number16(image), k = plain_number16(image + 2), begins[513];
    const uint8_t *lists = image + 268 + 2 * n, *records = second ? image + length - 12 - 4 * plain_number32(image + 8) - 4 * n : lists, *entries = records + 4 * n;
    uint32_t most = (uint32_t)(room_length / 6);
    uint16_t places[513];
    kamordast_scanned run = {0, 0, state, 0, 0};
    if (second) plain_places(image + 268, n, places);
    begins[0] = 0;
    for (uint32_t s = 0; s < n; s++) begins[s + 1] = begins[s] + plain_number16(records + 4 * s + 2);
    for (size_t i = 0; i < bytes; i++) {
        uint32_t class = image[12 + payload[i]], s = run.state, hops = run.hops, target;
        for (;;) {
            uint32_t count = begins[s + 1] - begins[s];
            const uint8_t *entry = entries + 4 * begins[s], *end = entry + 4 * count;
            if (count == k) {
                target = plain_number16(entry + 4 * class + 2);
                break;
            }
            if (count > 8) entry = near(entry, count, class);
            while (entry < end && plain_number16(entry) < class) entry += 4;
            if (entry < end && plain_number16(entry) == class) {
                target = plain_number16(entry + 2);
                break;
            }
            s = plain_number16(records + 4 * s);
            hops++;
        }
        uint32_t label = plain_number16(image + 268 + 2 * target);
        if (label && second) {
            if (most - run.reports < label) return run;
            plain_put_reports(room + 6 * run.reports, i, lists + 2 * places[target], label);
            run.reports += label;
        } else if (label) {
            if (most <= run.reports) return run;
            uint8_t *report = room + 6 * run.reports++;
            plain_put32(report, (uint32_t)i);
            plain_put16(report + 4, label);
        }
        run.state = target;
        run.hops = hops;
        run.taken++;
    }
    return run;
}

kamordast_scanned plain_scan(const uint8_t *image, size_t length, uint32_t state, const uint8_t *payload, size_t bytes, uint8_t *room, size_t room_length) {
    return scanned(image, length, state, payload, bytes, room, room_length, 0);
}

kamordast_scanned plain_second_scan(const uint8_t *image, size_t length, uint32_t state, const uint8_t *payload, size_t bytes, uint8_t *room, size_t room_length) {
    return scanned(image, length, state, payload, bytes, room, room_length, 1);
}
