/* The command of the night shift, thin over the proved operations: files in, one operation, files or lines out. */
#include <errno.h>
#include <stdio.h>
#include <stdlib.h>
#include <string.h>

#include "files.h"
#include "kamordast.h"
#include "layout.h"
#include "patches.h"
#include "refusals.h"
#include "report.h"
#include "reports.h"
#include "served.h"
#include "status.h"
#include "store.h"
#include "tables.h"

static uint8_t input[LONGEST_IMAGE + 2], list[1024 + 2], payload[LONGEST_PAYLOAD + 2];

static const char help[] =
    "usage: kamordast COMMAND ...\n"
    "\n"
    "  strings [--binary] LIST TABLE  the table of a word list: a line for each string, which is its label, one tab and the string; --binary: bytes as in docs/FORMATS.md\n"
    "  reduce TABLE TABLE             the first without states that no payload reaches or tells apart from another; says how many and what it saves\n"
    "  judge FILE                     is FILE an image, or a table? of what size and edition, with how many labels?\n"
    "  compact [--order N] TABLE BOUND IMAGE\n"
    "                                 the image of TABLE with path bound BOUND, 0 to 65535\n"
    "  write TABLE DEFAULTS IMAGE     the image of TABLE with a list of defaults, two bytes a state\n"
    "  expand IMAGE TABLE             the table of IMAGE\n"
    "  rewrite IMAGE IMAGE            the first without its defaults that share fewer than two classes; says how many went and what it did\n"
    "  forward IMAGE IMAGE            the first, of edition 1, moved into edition 2 as the second\n"
    "  back IMAGE IMAGE               the first, of edition 2 with at most one label on a state, moved into edition 1\n"
    "  diff IMAGE TARGET PATCH        the patch that makes TARGET of IMAGE, applied and compared before it is written; says what it saves, or why there is none\n"
    "  judge-patch IMAGE PATCH        does PATCH fit IMAGE, and what does it make of it?\n"
    "  apply IMAGE PATCH IMAGE        the first with PATCH, as the second\n"
    "  scan IMAGE PAYLOAD [STATE]     the reports of PAYLOAD, from STATE or the start state, a line for each label of an offset\n"
    "  scan-patched IMAGE PATCH PAYLOAD [STATE]\n"
    "                                 the same by IMAGE with PATCH, which is not applied for it\n"
    "  walk TABLE PAYLOAD [STATE]     the same as scan by the table itself, without an image and without hops\n"
    "  served [--sort] IMAGE PAYLOAD  for each state how often it served and how often it ran; --sort: the one that served most first\n"
    "  report IMAGE [PAYLOAD]         a page of HTML on standard output: what the image is, its forest, how hops and entries are spread, and what PAYLOAD did with it\n"
    "  bounds TABLE                   depth, worst, entries, defaults and bytes with bounds 0 to 3\n"
    "  forest [--dot] [--order N] TABLE BOUND\n"
    "                                 which state falls back to which, as lines or for Graphviz\n"
    "\n"
    "Orders of pairs of equal weight: 0 by pair (where none is named), 1 the shortest path over the pair (BGS), 2 the least growth (REF).\n"
    "Order 3 lets each state fall back toward the start: a whole payload from there costs no more hops than it has bytes, and BOUND changes nothing.\n"
    "Edition 2 of tables and images has up to 16 labels on a state. Every command takes both editions, and an output file is of its input's, but for forward and back; strings makes edition 2.\n"
    "In a word list \\xNN is a byte by two hexadecimal digits, \\t a tab, \\n a line's end and \\\\ a backslash; 1 to 64 strings of 1 to 32 bytes, labels 1 to 65535.\n"
    "A patch lists 1 to 64 states of the image that it is made for with their new defaults and entries; labels, classes, start state and edition stay.\n"
    "Example: kamordast strings examples/endings.list endings.table\n"
    "Example: kamordast compact endings.table 2 endings.image\n"
    "Example: kamordast scan endings.image README.md\n"
    "Example: kamordast reduce endings.table reduced.table\n"
    "Example: kamordast compact --order 3 examples/words.table 0 words.image\n"
    "Example: kamordast served --sort words.image README.md\n"
    "Example: kamordast report words.image README.md\n"
    "Example: kamordast walk examples/words.table README.md\n"
    "Example: kamordast walk examples/endings.table README.md\n"
    "Example: kamordast rewrite words.image words-new.image\n"
    "Example: kamordast forward words.image words-2.image\n"
    "Example: kamordast back words-2.image words-1.image\n"
    "Example: kamordast compact examples/words.table 0 old.image\n"
    "Example: kamordast compact examples/words.table 1 new.image\n"
    "Example: kamordast diff old.image new.image new.patch\n"
    "Example: kamordast judge-patch old.image new.patch\n"
    "Example: kamordast scan-patched old.image new.patch README.md\n"
    "Example: kamordast apply old.image new.patch applied.image\n"
    "Exit status: 0 done, 1 refused (the number and what to do on standard error; of diff: why there is no patch), 2 usage, 3 file trouble, 4 a count or a patch that is not what the proved operations say.\n"
    "A file is written beside its place, read back and judged before it gets its name.\n";

static int usage(const char *what) {
    fprintf(stderr, "kamordast: %s\ntry: kamordast --help\n", what);
    return USAGE;
}

/* A state is handed on as it was typed, as far as it has 32 bits. */
static const long MOST_STATE = 4294967295L;
static const char state_wanted[] = "the state is a number from 0 to 4294967295";

/* A number from 0 to `most`, or -1. */
static long number_of(const char *word, long most) {
    char *end;
    errno = 0;
    long x = strtol(word, &end, 10);
    return *word < '0' || *word > '9' || *end || errno || x > most ? -1 : x;
}

static int judge(const char *name) {
    size_t length = read_file(name, input, LONGEST_IMAGE);
    uint32_t as_image = kamordast_judge_image(input, length), as_table = kamordast_judge_table(input, length);
    if (as_image == 0) {
        printf("%s: an image of %u states and %u classes, depth %u, worst %u, %u entries, %zu bytes, edition %u, %u labels\n", name, (unsigned)states_of(input),
               (unsigned)number16(input, 2), (unsigned)number16(input, 6), (unsigned)number16(input, length - 4), (unsigned)number32(input, 8), length, (unsigned)edition_of(input),
               (unsigned)labels_of(input, IMAGE_LABELS));
        return DONE;
    }
    if (as_table == 0) {
        printf("%s: a table of %u states and %u classes, %zu bytes, edition %u, %u labels\n", name, (unsigned)states_of(input), (unsigned)number16(input, 2), length,
               (unsigned)edition_of(input), (unsigned)labels_of(input, TABLE_LABELS));
        return DONE;
    }
    fprintf(stderr, "kamordast: %s: as an image refused %u: %s\n  what to do: %s\n", name, (unsigned)as_image, refusal_meaning(as_image), refusal_advice(as_image));
    fprintf(stderr, "kamordast: %s: as a table refused %u: %s\n  what to do: %s\n", name, (unsigned)as_table, refusal_meaning(as_table), refusal_advice(as_table));
    return REFUSED;
}

/* Reads a table and compacts it into the room, in an order and with a bound as they were typed. Answers DONE, or USAGE where a word is no number. An order too
 * large for 32 bits is as unknown as any above 3. */
static int compacted(const char *order_word, const char *table, const char *bound_word, kamordast_built *built) {
    long bound = number_of(bound_word, 65535);
    if (!*order_word || order_word[strspn(order_word, "0123456789")]) return usage("the order is a number");
    if (bound < 0) return usage("the bound is a number from 0 to 65535");
    unsigned long long order = strtoull(order_word, NULL, 10);
    size_t length = read_file(table, input, LONGEST_TABLE);
    *built = kamordast_compact_in_order(input, length, order > UINT32_MAX ? UINT32_MAX : (uint32_t)order, (uint16_t)bound, room, sizeof room);
    return DONE;
}

/* What a refusal of compact is said of: the order, or the table. */
static const char *refused_word(kamordast_built built, const char *order_word, const char *table) { return built.refused == 18 ? order_word : table; }

static int compact(const char *order_word, const char *table, const char *bound_word, const char *image) {
    kamordast_built built;
    int status = compacted(order_word, table, bound_word, &built);
    if (status != DONE) return status;
    return store(refused_word(built, order_word, table), built, image, is_image);
}

static int write_image(const char *table, const char *defaults, const char *image) {
    size_t length = read_file(table, input, LONGEST_TABLE), list_length = read_file(defaults, list, 1024);
    uint32_t refused = kamordast_judge_table(input, length);
    if (refused) return refuse(table, refused);
    return store(defaults, kamordast_write(input, length, list, list_length, room, sizeof room), image, is_image);
}

static int expand(const char *image, const char *table) {
    size_t length = read_file(image, input, LONGEST_IMAGE);
    return store(image, kamordast_expand(input, length, room, sizeof room), table, is_table);
}

/* How many states of an accepted image have a default. */
static uint32_t defaults_in(const uint8_t *image, size_t length) {
    uint32_t used = 0, n = states_of(image);
    for (uint32_t s = 0; s < n; s++) used += number16(image, records_at(image, length) + 4 * s) != NO_STATE;
    return used;
}

/* The image without the defaults that are not worth their hops, and a line of what that did. */
static int rewrite(const char *from, const char *to) {
    size_t length = read_file(from, input, LONGEST_IMAGE);
    kamordast_built built = kamordast_rewrite(input, length, room, sizeof room);
    int status = store(from, built, to, is_image);
    if (status != DONE) return status;
    uint32_t used = defaults_in(input, length), left = defaults_in(room, built.length);
    printf("%u of %u defaults went; bytes %zu to %u, depth %u to %u, worst %u to %u\n", (unsigned)(used - left), (unsigned)used, length, (unsigned)built.length,
           (unsigned)number16(input, 6), (unsigned)number16(room, 6), (unsigned)number16(input, length - 4), (unsigned)number16(room, built.length - 4));
    return DONE;
}

/* What moves an image to the other edition. */
typedef kamordast_built mover(const uint8_t *, size_t, uint8_t *, size_t);

static int move(mover *moved, const char *from, const char *to) {
    size_t length = read_file(from, input, LONGEST_IMAGE);
    return store(from, moved(input, length, room, sizeof room), to, is_image);
}

/* What runs a payload from a state, of an image or of a table, and what judges it; both have their start state at the same place. */
typedef kamordast_scanned runner(const uint8_t *, size_t, uint32_t, const uint8_t *, size_t, uint8_t *, size_t);
typedef uint32_t judges(const uint8_t *, size_t);

/* Scan and walk. */
static int reports(judges *judged, runner *run, const char *from, size_t longest, const char *bytes, const char *state_word) {
    size_t length = read_file(from, input, longest);
    uint32_t refused = judged(input, length);
    if (refused) return refuse(from, refused);
    long state = state_word ? number_of(state_word, MOST_STATE) : (long)number16(input, 4);
    if (state < 0) return usage(state_wanted);
    size_t payload_length = read_file(bytes, payload, LONGEST_PAYLOAD);
    kamordast_scanned r = run(input, length, (uint32_t)state, payload, payload_length, room, LONGEST_REPORTS);
    return say_reports(r, r.refused == 15 ? bytes : state_word ? state_word : from);
}

static int scan(const char *image, const char *bytes, const char *state_word) {
    return reports(kamordast_judge_image, kamordast_scan, image, LONGEST_IMAGE, bytes, state_word);
}

static int walk(const char *table, const char *bytes, const char *state_word) {
    return reports(kamordast_judge_table, kamordast_walk, table, LONGEST_TABLE, bytes, state_word);
}

static int bounds(const char *table) {
    size_t length = read_file(table, input, LONGEST_TABLE);
    uint32_t refused = kamordast_judge_table(input, length);
    if (refused) return refuse(table, refused);
    printf("bound depth worst stored defaults bytes\n");
    for (uint32_t bound = 0; bound < 4; bound++) {
        kamordast_built built = kamordast_compact(input, length, (uint16_t)bound, room, sizeof room);
        if (built.refused) return refuse(table, built.refused);
        printf("%u %u %u %u %u %u\n", (unsigned)bound, (unsigned)number16(room, 6), (unsigned)number16(room, built.length - 4), (unsigned)number32(room, 8),
               (unsigned)defaults_in(room, built.length), (unsigned)built.length);
    }
    return DONE;
}

static int forest(const char *order_word, const char *table, const char *bound_word, int dot) {
    kamordast_built built;
    int status = compacted(order_word, table, bound_word, &built);
    if (status != DONE) return status;
    if (built.refused) return refuse(refused_word(built, order_word, table), built.refused);
    uint32_t n = states_of(room);
    size_t records = records_at(room, built.length);
    if (dot) printf("digraph forest {\n  rankdir = BT;\n  node [shape = circle];\n");
    for (uint32_t s = 0; s < n; s++) {
        uint32_t d = number16(room, records + 4 * (size_t)s), count = number16(room, records + 4 * (size_t)s + 2), labelled = number16(input, TABLE_LABELS + 2 * (size_t)s);
        if (dot) {
            printf("  %u [label = \"%u\\n%u stored\"%s%s];\n", (unsigned)s, (unsigned)s, (unsigned)count, d == NO_STATE ? ", style = bold" : "", labelled ? ", peripheries = 2" : "");
            if (d != NO_STATE) printf("  %u -> %u;\n", (unsigned)s, (unsigned)d);
        } else if (d == NO_STATE) {
            printf("%u root, stores %u\n", (unsigned)s, (unsigned)count);
        } else {
            printf("%u falls to %u, stores %u\n", (unsigned)s, (unsigned)d, (unsigned)count);
        }
    }
    if (dot) printf("}\n");
    return DONE;
}

/* Takes an option out of the words behind the command: whether it is there, and the word behind it where it has one. */
static int option(int *count, char **words, const char *name, const char **value) {
    for (int i = 2; i < *count; i++) {
        int taken = value ? 2 : 1;
        if (strcmp(words[i], name) || i + taken > *count) continue;
        if (value) *value = words[i + 1];
        *count -= taken;
        for (; i < *count; i++) words[i] = words[i + taken];
        return 1;
    }
    return 0;
}

static int run(int count, char **words) {
    if (count < 2) return usage("a command is wanted");
    const char *command = words[1];
    if (!strcmp(command, "--help") || !strcmp(command, "-h") || !strcmp(command, "help") || (count == 3 && !strcmp(words[2], "--help"))) {
        fputs(help, stdout);
        return DONE;
    }
    if (!strcmp(command, "strings")) {
        int binary = option(&count, words, "--binary", NULL);
        return count == 4 ? strings(words[2], words[3], binary) : usage("strings wants [--binary] LIST TABLE");
    }
    if (!strcmp(command, "reduce")) return count == 4 ? reduce(words[2], words[3]) : usage("reduce wants TABLE TABLE");
    if (!strcmp(command, "judge")) return count == 3 ? judge(words[2]) : usage("judge wants FILE");
    if (!strcmp(command, "compact")) {
        const char *order = "0";
        option(&count, words, "--order", &order);
        return count == 5 ? compact(order, words[2], words[3], words[4]) : usage("compact wants [--order N] TABLE BOUND IMAGE");
    }
    if (!strcmp(command, "write")) return count == 5 ? write_image(words[2], words[3], words[4]) : usage("write wants TABLE DEFAULTS IMAGE");
    if (!strcmp(command, "expand")) return count == 4 ? expand(words[2], words[3]) : usage("expand wants IMAGE TABLE");
    if (!strcmp(command, "rewrite")) return count == 4 ? rewrite(words[2], words[3]) : usage("rewrite wants IMAGE IMAGE");
    if (!strcmp(command, "forward")) return count == 4 ? move(kamordast_forward, words[2], words[3]) : usage("forward wants IMAGE IMAGE");
    if (!strcmp(command, "back")) return count == 4 ? move(kamordast_back, words[2], words[3]) : usage("back wants IMAGE IMAGE");
    if (!strcmp(command, "diff")) return count == 5 ? diff(words[2], words[3], words[4]) : usage("diff wants IMAGE TARGET PATCH");
    if (!strcmp(command, "judge-patch")) return count == 4 ? judge_patch(words[2], words[3]) : usage("judge-patch wants IMAGE PATCH");
    if (!strcmp(command, "apply")) return count == 5 ? apply(words[2], words[3], words[4]) : usage("apply wants IMAGE PATCH IMAGE");
    if (!strcmp(command, "scan-patched")) {
        if (count != 5 && count != 6) return usage("scan-patched wants IMAGE PATCH PAYLOAD [STATE]");
        if (count == 6 && number_of(words[5], MOST_STATE) < 0) return usage(state_wanted);
        return scan_patched(words[2], words[3], words[4], count == 6 ? number_of(words[5], MOST_STATE) : -1);
    }
    if (!strcmp(command, "scan"))
        return count == 4 || count == 5 ? scan(words[2], words[3], count == 5 ? words[4] : NULL) : usage("scan wants IMAGE PAYLOAD [STATE]");
    if (!strcmp(command, "walk"))
        return count == 4 || count == 5 ? walk(words[2], words[3], count == 5 ? words[4] : NULL) : usage("walk wants TABLE PAYLOAD [STATE]");
    if (!strcmp(command, "served")) {
        int sorted = option(&count, words, "--sort", NULL);
        return count == 4 ? served(words[2], words[3], sorted) : usage("served wants [--sort] IMAGE PAYLOAD");
    }
    if (!strcmp(command, "report")) return count == 3 || count == 4 ? report(words[2], count == 4 ? words[3] : NULL) : usage("report wants IMAGE [PAYLOAD]");
    if (!strcmp(command, "bounds")) return count == 3 ? bounds(words[2]) : usage("bounds wants TABLE");
    if (!strcmp(command, "forest")) {
        const char *order = "0";
        option(&count, words, "--order", &order);
        int dot = option(&count, words, "--dot", NULL);
        return count == 4 ? forest(order, words[2], words[3], dot) : usage("forest wants [--dot] [--order N] TABLE BOUND");
    }
    fprintf(stderr, "kamordast: there is no command %s\ntry: kamordast --help\n", command);
    return USAGE;
}

int main(int count, char **words) {
    int status = run(count, words);
    if (fflush(stdout) || ferror(stdout)) {
        fprintf(stderr, "kamordast: standard output cannot be written\n");
        return TROUBLE;
    }
    return status;
}
