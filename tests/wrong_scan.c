/* Stands before the archive's scan (the linker's --wrap) and adds one to a number of its second answer, the one that WRONG names: the command must see it. */
#include <stdlib.h>
#include <string.h>

#include "kamordast.h"

kamordast_scanned __real_kamordast_scan(const uint8_t *, size_t, uint32_t, const uint8_t *, size_t, uint8_t *, size_t);
kamordast_scanned __wrap_kamordast_scan(const uint8_t *, size_t, uint32_t, const uint8_t *, size_t, uint8_t *, size_t);

kamordast_scanned __wrap_kamordast_scan(const uint8_t *image, size_t length, uint32_t state, const uint8_t *payload, size_t bytes, uint8_t *room, size_t room_length) {
    static int calls;
    const char *wrong = getenv("WRONG");
    kamordast_scanned r = __real_kamordast_scan(image, length, state, payload, bytes, room, room_length);
    if (++calls != 2 || !wrong) return r;
    r.refused += !strcmp(wrong, "refused");
    r.taken += !strcmp(wrong, "taken");
    r.state += !strcmp(wrong, "state");
    r.hops += !strcmp(wrong, "hops");
    return r;
}
