/* Stands before the archive's apply (linked with --wrap=kamordast_apply): as the environment's word WRONG says, its first answer of a run has one thing made wrong, or its second: the command must notice. */
#include <stdlib.h>
#include <string.h>

#include "kamordast.h"

kamordast_built __real_kamordast_apply(const uint8_t *image, size_t image_length, const uint8_t *patch, size_t patch_length, uint8_t *room, size_t room_length);
kamordast_built __wrap_kamordast_apply(const uint8_t *image, size_t image_length, const uint8_t *patch, size_t patch_length, uint8_t *room, size_t room_length);

kamordast_built __wrap_kamordast_apply(const uint8_t *image, size_t image_length, const uint8_t *patch, size_t patch_length, uint8_t *room, size_t room_length) {
    static int calls;
    kamordast_built r = __real_kamordast_apply(image, image_length, patch, patch_length, room, room_length);
    const char *wrong = getenv("WRONG");
    if (++calls != (wrong && !strcmp(wrong, "second") ? 2 : 1) || !wrong) return r;
    if (!strcmp(wrong, "refused")) r.refused = 22;
    if (!strcmp(wrong, "length")) r.length -= 2;
    if (!strcmp(wrong, "byte") || !strcmp(wrong, "second")) room[r.length / 2] ^= 1;
    return r;
}
