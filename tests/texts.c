/* Word lists as text, there and back: lists at random are written with every byte in any of its ways, and what the command makes of the text is the list again. Texts that are cut or damaged are taken only where they still are lists, else a line
 * is named. The line that a list is refused for is that of the first string with which it would be. */
#include <stdio.h>
#include <string.h>

#include "reference/reference.h"
#include "support.h"
#include "word_list.h"

static uint8_t list[KAMORDAST_LONGEST_LIST], text[LONGEST_TEXT + 2], table[LONGEST_TABLE];
static size_t length, bytes;
static uint32_t line;
static const char *fault;
static guarded lent_text, lent_list;
static uint64_t cases, faults, still_lists, lines[29];

/* A list of so many strings; of few letters, or of any bytes. */
static void make_list(uint32_t count, uint32_t letters, uint32_t longest) {
    set16(list, 0, count);
    length = 2;
    for (uint32_t i = 0; i < count; i++) {
        uint32_t size = 1 + below(longest);
        set16(list, length, below(50) ? 1 + (i * 977 + 3 * letters) % 65535 : below(4) * 977);
        set16(list, length + 2, size);
        length += 4;
        for (; size; size--) list[length++] = (uint8_t)(letters == 256 ? below(256) : 'a' + below(letters));
    }
}

/* One byte of a string in one of its ways. */
static void put_byte(uint8_t byte, int always) {
    static const char named[] = "t\tn\n\\\\";
    for (uint32_t i = 0; i < 6 && !always && below(2); i += 2)
        if ((uint8_t)named[i + 1] == byte) {
            text[bytes++] = '\\';
            text[bytes++] = (uint8_t)named[i];
            return;
        }
    if (!always && byte >= 32 && byte != 127 && byte != '\\' && below(4)) text[bytes++] = byte;
    else bytes += (size_t)sprintf((char *)text + bytes, below(2) ? "\\x%02x" : "\\x%02X", byte);
}

/* The list as text. */
static void put_text(int longest) {
    size_t at = 2;
    bytes = 0;
    for (uint32_t i = 0; i < number16(list, 0); i++) {
        uint32_t size = number16(list, at + 2);
        bytes += (size_t)sprintf((char *)text + bytes, longest ? "%05u\t" : "%u\t", (unsigned)number16(list, at));
        for (uint32_t j = 0; j < size; j++) put_byte(list[at + 4 + j], longest);
        at += 4 + size;
        text[bytes++] = '\n';
    }
    if (!longest && below(3) == 0) bytes--;
}

/* Reads the text between guard pages, into a room that has no byte too many. */
static size_t read_text(const uint8_t **read) {
    uint8_t *from = at_either(&lent_text, bytes, cases++), *to = at_end(&lent_list, KAMORDAST_LONGEST_LIST);
    memcpy(from, text, bytes);
    *read = to;
    return list_of_text(from, bytes, to, &line, &fault);
}

static void there_and_back(void) {
    const uint8_t *read;
    size_t got = read_text(&read);
    if (line || got != length || memcmp(read, list, length)) fail("the text is not the list", cases);
}

/* A byte of the text is another, or the text is cut, or a byte is put in. */
static void damaged(void) {
    const uint8_t *read;
    uint32_t at = below((uint32_t)bytes + 1), kind = below(3), lines_here = 1;
    if (kind == 0 && at < bytes) text[at] = (uint8_t)(below(2) ? below(256) : (uint8_t)"\t\n\\x0\r9a"[below(8)]);
    if (kind == 1) bytes = at;
    if (kind == 2 && bytes < LONGEST_TEXT) {
        memmove(text + at + 1, text + at, bytes - at);
        text[at] = (uint8_t)"\t\n\\x0\r9a"[below(8)];
        bytes++;
    }
    for (size_t i = 0; i < bytes; i++) lines_here += text[i] == '\n';
    size_t got = read_text(&read);
    if (line) {
        if (line > lines_here || !fault || got) fail("a fault in a line that is not there", cases);
        faults++;
    } else {
        if (reference_strings(read, got, table, sizeof table).refused == 26 && bytes) fail("a text without a fault is no list", cases);
        still_lists++;
    }
}

/* The line of a list that is refused: of 27 and 28 the first with which the strings before it are refused so too; of 19 one that more than 16 strings end. */
static void named(void) {
    uint32_t refused = reference_strings(list, length, table, sizeof table).refused, found = refused_line(list, refused), count = number16(list, 0), ends = 0;
    if (!refused || refused == 26) {
        if (found) fail("a line is named for nothing", cases);
        return;
    }
    if (found < 1 || found > count) fail("no line is named", refused);
    lines[refused]++;
    size_t at = 2, before = 2;
    for (uint32_t i = 0; i < found; i++) {
        before = at;
        at += 4 + number16(list, at + 2);
    }
    if (refused == 19) {
        size_t other = 2;
        for (uint32_t i = 0; i < count; i++) {
            size_t size = number16(list, other + 2), whole = number16(list, before + 2);
            ends += size <= whole && !memcmp(list + other + 4, list + before + 4 + whole - size, size);
            other += 4 + size;
        }
        if (ends <= 16) fail("a line that few strings end", cases);
        return;
    }
    set16(list, 0, found);
    if (reference_strings(list, at, table, sizeof table).refused != refused) fail("the line comes too early", cases);
    set16(list, 0, found - 1);
    if (found > 1 && reference_strings(list, before, table, sizeof table).refused == refused) fail("the line comes too late", cases);
}

int main(void) {
    lent_text = guard(LONGEST_TEXT + 2);
    lent_list = guard(KAMORDAST_LONGEST_LIST);
    seed(232);
    for (uint32_t round = 0; round < 2000; round++) {
        make_list(round % 20 ? 1 + below(20) : 64 - below(8), round % 3 ? 1 + below(3) : 256, round % 20 < 19 && round % 40 ? 1 + below(6) : 32);
        put_text(0);
        there_and_back();
        for (int times = 0; times < 4; times++) damaged();
        named();
    }
    /* The longest text: 64 strings of 32 bytes, all in hexadecimal digits. A byte more is a line too many. */
    make_list(64, 256, 1);
    length = 2;
    for (uint32_t i = 0; i < 64; i++, length += 36) {
        set16(list, length, 40000 + i);
        set16(list, length + 2, 32);
        for (uint32_t j = 0; j < 32; j++) list[length + 4 + j] = (uint8_t)below(256);
    }
    put_text(1);
    if (bytes != LONGEST_TEXT || length != KAMORDAST_LONGEST_LIST) fail("the longest text", bytes);
    there_and_back();
    text[bytes++] = '7';
    const uint8_t *read;
    if (read_text(&read) || line != 65) fail("a byte more than the longest text", line);
    if (!faults || !still_lists || !lines[19] || !lines[27] || !lines[28]) fail("a kind of text did not occur", cases);
    printf("texts: %llu texts of word lists; %llu of the damaged ones had a line that is none, %llu were still lists; %llu, %llu and %llu lines named for 19, 27 and 28\n", (unsigned long long)cases, (unsigned long long)faults,
           (unsigned long long)still_lists, (unsigned long long)lines[19], (unsigned long long)lines[27], (unsigned long long)lines[28]);
    return 0;
}
