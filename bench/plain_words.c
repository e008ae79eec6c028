/* Ground 7 and the check word in C. The check word is summed by 32 bits, which RFC 1071 allows, and folded at the end. */
#include "plain.h"

int plain_classes_bad(const uint8_t *classes, size_t k) {
    uint8_t seen[256] = {0}, bad = 0;
    for (size_t x = 0; x < 256; x++) seen[classes[x]] = 1;
    for (size_t c = 0; c < 256; c++) bad |= seen[c] ^ (c < k);
    return bad;
}

uint16_t plain_check_word(const uint8_t *bytes, size_t length) {
    uint64_t sum = 0;
    size_t i = 0;
    for (; i + 4 <= length; i += 4) sum += plain_number32(bytes + i);
    if (i < length) sum += plain_number16(bytes + i);
    while (sum >> 16) sum = (sum & 65535) + (sum >> 16);
    return (uint16_t)~sum;
}
