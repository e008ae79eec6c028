/* Three faults put in, one at a time by the variable WRONG: a wrong number that takes a patch with a right check word to reach, a byte written behind a result, and a byte read behind a text. The fuzzer must find each. */
#include <stdlib.h>
#include <string.h>

#include "kamordast.h"
#include "word_list.h"

static int wrong(const char *which) { return getenv("WRONG") && !strcmp(getenv("WRONG"), which); }

uint32_t __real_kamordast_judge_patch(const uint8_t *image, size_t length, const uint8_t *patch, size_t patch_length);
uint32_t __wrap_kamordast_judge_patch(const uint8_t *image, size_t length, const uint8_t *patch, size_t patch_length);
uint32_t __wrap_kamordast_judge_patch(const uint8_t *image, size_t length, const uint8_t *patch, size_t patch_length) {
    uint32_t refused = __real_kamordast_judge_patch(image, length, patch, patch_length);
    return refused == 12 && wrong("number") ? 13 : refused;
}

kamordast_built __real_kamordast_back(const uint8_t *image, size_t length, uint8_t *room, size_t room_length);
kamordast_built __wrap_kamordast_back(const uint8_t *image, size_t length, uint8_t *room, size_t room_length);
kamordast_built __wrap_kamordast_back(const uint8_t *image, size_t length, uint8_t *room, size_t room_length) {
    kamordast_built built = __real_kamordast_back(image, length, room, room_length);
    if (!built.refused && wrong("written")) room[built.length] = 0;
    return built;
}

size_t __real_list_of_text(const uint8_t *text, size_t length, uint8_t *list, uint32_t *line, const char **fault);
size_t __wrap_list_of_text(const uint8_t *text, size_t length, uint8_t *list, uint32_t *line, const char **fault);
size_t __wrap_list_of_text(const uint8_t *text, size_t length, uint8_t *list, uint32_t *line, const char **fault) {
    int over = length > 0 && text[length - 1] == '\\' && wrong("read");
    return __real_list_of_text(text, length + (size_t)over, list, line, fault);
}
