#include "tables.h"

#include <stdio.h>
#include <string.h>

#include "refusals.h"
#include "status.h"
#include "store.h"
#include "word_list.h"

/* Refuses a list for one of its lines. */
static int refuse_line(const char *from, uint32_t line, uint32_t number) {
    char name[4096];
    snprintf(name, sizeof name, "%s: line %u", from, (unsigned)line);
    int status = refuse(name, number);
    if (number == 19) fprintf(stderr, "  in a word list: more than 16 strings end this one, itself among them; take some of them out\n");
    return status;
}

/* Reads a list as text or as it stands. Answers its length, or 0 where a line is none and that was said. */
static size_t read_list(const char *from, int binary, uint8_t *list) {
    static uint8_t text[LONGEST_TEXT + 2];
    const char *fault;
    uint32_t line;
    if (binary) return read_file(from, list, KAMORDAST_LONGEST_LIST);
    size_t length = list_of_text(text, read_file(from, text, LONGEST_TEXT), list, &line, &fault);
    if (!line) return length;
    fprintf(stderr, "kamordast: %s: line %u: refused 26: %s\n  what to do: %s\n", from, (unsigned)line, fault, refusal_advice(26));
    return 0;
}

int strings(const char *from, const char *to, int binary) {
    static uint8_t list[KAMORDAST_LONGEST_LIST + 2];
    size_t length = read_list(from, binary, list);
    if (!length && !binary) return REFUSED;
    kamordast_built built = kamordast_strings(list, length, room, sizeof room);
    uint32_t line = binary ? 0 : refused_line(list, built.refused);
    if (line) return refuse_line(from, line, built.refused);
    int status = store(from, built, to, is_table);
    if (status == DONE) printf("%u strings, %u states and %u classes\n", (unsigned)number16(list, 0), (unsigned)states_of(room), (unsigned)number16(room, 2));
    return status;
}

/* How many states of an accepted table payloads reach from its start state. */
static uint32_t reached_in(const uint8_t *table, size_t length) {
    uint32_t n = states_of(table), k = number16(table, 2), count = 1;
    uint16_t found[512] = {(uint16_t)number16(table, 4)};
    uint8_t seen[512] = {0};
    seen[found[0]] = 1;
    for (uint32_t i = 0; i < count; i++)
        for (uint32_t c = 0; c < k; c++) {
            uint32_t to = number16(table, length - 2 * (size_t)n * k + 2 * ((size_t)found[i] * k + c));
            if (!seen[to]) found[count++] = (uint16_t)to;
            seen[to] = 1;
        }
    return count;
}

/* The length of a table's image with bound 2 in order 0. */
static uint32_t image_length(const uint8_t *table, size_t length) {
    static uint8_t image[LONGEST_IMAGE];
    return kamordast_compact(table, length, 2, image, sizeof image).length;
}

int reduce(const char *from, const char *to) {
    static uint8_t table[LONGEST_TABLE + 2];
    size_t length = read_file(from, table, LONGEST_TABLE);
    kamordast_built built = kamordast_reduce(table, length, room, sizeof room);
    int status = store(from, built, to, is_table);
    if (status != DONE) return status;
    uint32_t n = states_of(table), reached = reached_in(table, length), left = states_of(room);
    printf("of %u states %u were unreachable and %u merged, %u are left; table %zu to %u bytes, image with bound 2 %u to %u\n", (unsigned)n, (unsigned)(n - reached), (unsigned)(reached - left), (unsigned)left,
           length, (unsigned)built.length, (unsigned)image_length(table, length), (unsigned)image_length(room, built.length));
    return DONE;
}
