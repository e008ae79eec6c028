/* The walk of a payload through the plain table in C: one step of look-up a byte and no hops. In edition 2 where each state's labels begin is found once. */
#include "plain.h"

EACH_EDITION kamordast_scanned walked(const uint8_t *table, size_t length, uint32_t state, const uint8_t *payload, size_t bytes, uint8_t *room, size_t room_length, int second) {
    size_t n = second ? plain_states(table) : plain_number16(table), k = plain_number16(table + 2), most = room_length / 6;
    const uint8_t *rows = table + length - 2 * n * k, *lists = table + 262 + 2 * n;
    uint16_t places[513];
    kamordast_scanned run = {0, 0, state, 0, 0};
    if (second) plain_places(table + 262, n, places);
    for (size_t i = 0; i < bytes; i++) {
        uint32_t next = plain_number16(rows + 2 * (run.state * k + table[6 + payload[i]])), label = plain_number16(table + 262 + 2 * next);
        if (label && second) {
            if (most - run.reports < label) return run;
            plain_put_reports(room + 6 * run.reports, i, lists + 2 * places[next], label);
            run.reports += label;
        } else if (label) {
            if (most <= run.reports) return run;
            uint8_t *report = room + 6 * run.reports++;
            plain_put32(report, (uint32_t)i);
            plain_put16(report + 4, label);
        }
        run.state = next;
        run.taken++;
    }
    return run;
}

kamordast_scanned plain_walk(const uint8_t *table, size_t length, uint32_t state, const uint8_t *payload, size_t bytes, uint8_t *room, size_t room_length) {
    return walked(table, length, state, payload, bytes, room, room_length, 0);
}

kamordast_scanned plain_second_walk(const uint8_t *table, size_t length, uint32_t state, const uint8_t *payload, size_t bytes, uint8_t *room, size_t room_length) {
    return walked(table, length, state, payload, bytes, room, room_length, 1);
}
