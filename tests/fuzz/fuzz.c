/* A fuzzer guided by coverage, small, for a machine that has gcc alone:
 *
 *     fuzz RUNS SEED FILE...
 *
 * The files are the corpus, each named for its kind: NAME.table, NAME.image and so on; those of one name make an input. Each input runs through every operation as it is. Then inputs are taken, altered and run, and those that took a new way are kept, in memory.
 * One run of 8 is of the command. The same seed gives the same runs. Exit status 1 where something was found: what and in which run, and the input's pieces are kept as files in this folder. */
#include "input.h"

#include <stdio.h>
#include <stdlib.h>
#include <string.h>
#include <unistd.h>

#include "../support.h"
#include "coverage.h"

const char *const kind_names[KINDS] = {"table", "image", "patch", "defaults", "list", "text", "payload"};

enum { MOST_KEPT = 1200, MOST_SEEDS = 16 };
static input kept[MOST_KEPT], current;
static char names[MOST_SEEDS][32];
static uint32_t seeds, kept_count;
static uint64_t runs, counts[64];

/* Says which run this is and keeps its pieces. */
static void keep_pieces(void) {
    end_command();
    fprintf(stderr, "fuzz: in run %llu, of %s; state %u, order %u, bound %u, room %u; its pieces are in the files found.*\n", (unsigned long long)runs, operations[current.operation].name, (unsigned)current.state,
            (unsigned)current.order, (unsigned)current.bound, (unsigned)current.room);
    for (uint32_t kind = 0; kind < KINDS; kind++) {
        char name[32];
        snprintf(name, sizeof name, "found.%s", kind_names[kind]);
        FILE *file = fopen(name, "wb");
        if (!file) continue;
        fwrite(current.of[kind].bytes, 1, current.of[kind].length, file);
        fclose(file);
    }
}

void found(const char *sentence) {
    end_command();
    fprintf(stderr, "fuzz: %s\n", sentence);
    keep_pieces();
    _exit(1);
}

/* Where a checker ends the program, it calls this before. It is there only where the checkers are. */
void __sanitizer_set_death_callback(void (*callback)(void)) __attribute__((weak));

/* The seed of a name, made where there is none yet. */
static input *seed_of(const char *name, size_t length) {
    for (uint32_t i = 0; i < seeds; i++)
        if (strlen(names[i]) == length && !memcmp(names[i], name, length)) return &kept[i];
    if (seeds == MOST_SEEDS || length >= sizeof *names) {
        fprintf(stderr, "fuzz: the corpus has too many names, or too long ones\n");
        exit(2);
    }
    memcpy(names[seeds], name, length);
    return &kept[seeds++];
}

static void read_seed(const char *path) {
    const char *name = strrchr(path, '/') ? strrchr(path, '/') + 1 : path, *dot = strrchr(name, '.');
    uint32_t kind = 0;
    while (dot && kind < KINDS && strcmp(dot + 1, kind_names[kind])) kind++;
    FILE *file = fopen(path, "rb");
    if (!dot || kind == KINDS || !file) {
        fprintf(stderr, "fuzz: %s: is of no kind, or cannot be read\n", path);
        exit(2);
    }
    piece *p = &seed_of(name, (size_t)(dot - name))->of[kind];
    p->length = fread(p->bytes, 1, MOST_BYTES, file);
    fclose(file);
}

/* A piece that a name does not have is the first name's. */
static void fill_seeds(void) {
    for (uint32_t i = 1; i < seeds; i++)
        for (uint32_t kind = 0; kind < KINDS; kind++)
            if (!kept[i].of[kind].length) kept[i].of[kind] = kept[0].of[kind];
    kept_count = seeds;
}

/* Runs the current input; keeps it where it took a new way. */
static void run_current(void) {
    runs++;
    counts[current.operation]++;
    operations[current.operation].run(&current);
    if (!coverage_fresh()) return;
    kept[kept_count < MOST_KEPT ? kept_count++ : seeds + below(MOST_KEPT - seeds)] = current;
}

int main(int count, char **words) {
    if (count < 4) {
        fprintf(stderr, "usage: fuzz RUNS SEED FILE...\n");
        return 2;
    }
    if (__sanitizer_set_death_callback) __sanitizer_set_death_callback(keep_pieces);
    for (int i = 3; i < count; i++) read_seed(words[i]);
    fill_seeds();
    seed(strtoull(words[2], NULL, 10));
    uint32_t command = operation_count - 1, different = 0;
    for (uint32_t i = 0; i < seeds; i++)
        for (uint32_t operation = 0; operation < operation_count; operation++) {
            current = kept[i];
            current.operation = operation;
            for (current.bound = 0; current.bound < (operation == command ? command_count : 3); current.bound++) run_current();
        }
    for (uint64_t most = strtoull(words[1], NULL, 10); runs < most;) {
        const input *other = &kept[below(kept_count)];
        uint32_t back = kept_count - (kept_count > 64 && below(2) ? 64 : kept_count);
        current = kept[back + below(kept_count - back)];
        if (!below(8)) current.operation = command;
        else if (current.operation == command || !below(3)) current.operation = below(command);
        mutate(&current, other, operations[current.operation].uses);
        run_current();
    }
    for (uint32_t operation = 0; operation < command; operation++)
        for (uint32_t answers = coverage_answers(operation); answers; answers &= answers - 1) different++;
    printf("fuzzing: %llu runs of %u operations with %u different answers, %llu of them of the command; %u ways met, %u inputs kept beside %u of the corpus; nothing found\n", (unsigned long long)runs, (unsigned)operation_count,
           (unsigned)different, (unsigned long long)counts[command], (unsigned)coverage_met(), (unsigned)(kept_count - seeds), (unsigned)seeds);
    return 0;
}
