/* The states of a forest in C, each after its default: every chain is walked up to the first state that has its place, then placed from there back. */
#include "plain.h"

int plain_order(const uint16_t *defaults, size_t n, plain_chains *chains) {
    uint16_t place[512], level[513], way[512];
    size_t placed = 0;
    memset(place, 255, sizeof place);
    chains->depth = 0;
    level[n] = 65535; /* a root is one step below nothing: its level is 0 */
    for (size_t s = 0; s < n; s++) {
        size_t steps = 0;
        for (size_t at = s; at != 65535 && place[at] == 65535; at = defaults[at]) {
            if (steps == n) return 0;
            way[steps++] = (uint16_t)at;
        }
        while (steps) {
            size_t at = way[--steps], fallback = defaults[at] == 65535 ? n : place[defaults[at]];
            chains->order[placed] = (uint16_t)at;
            chains->fallback[placed] = (uint16_t)fallback;
            level[placed] = (uint16_t)(level[fallback] + 1);
            if (chains->depth < level[placed]) chains->depth = level[placed];
            place[at] = (uint16_t)placed++;
        }
    }
    return 1;
}
