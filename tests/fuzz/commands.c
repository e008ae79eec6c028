/* The command and the loader on files, one call after the other in this process: a child for each would cost a hundred times as much under the checkers. So what the command keeps between two calls, such as the counts of `served`, is not from nothing;
 * none of it is looked at here. The command ends the program on trouble with a file, and there is none here: that it does is a find too. */
#define _DEFAULT_SOURCE
#include <fcntl.h>
#include <stdio.h>
#include <stdlib.h>
#include <string.h>
#include <unistd.h>

#include "../reference/reference.h"
#include "coverage.h"
#include "input.h"

/* The entries of both programs, which are built under these names. */
int command_main(int count, char **words);
int loader_main(int count, char **words);

/* Nothing that is written here is worth the wait for a disk. */
int __wrap_fsync(int file);
int __wrap_fsync(int file) {
    (void)file;
    return 0;
}

/* The words behind the command's name. A word that is a kind's name is the file of that piece; ORDER, BOUND and STATE are the input's numbers; `out` is the file that is written, an image, a table or a patch by `writes`, -1 where none is. */
typedef struct {
    const char *words[8];
    int writes;
} command;

static const command commands[] = {
    {{"judge", "image"}, -1},
    {{"judge", "table"}, -1},
    {{"loader", "image"}, -1},
    {{"compact", "--order", "ORDER", "table", "BOUND", "out"}, IMAGE},
    {{"write", "table", "defaults", "out"}, IMAGE},
    {{"expand", "image", "out"}, TABLE},
    {{"rewrite", "image", "out"}, IMAGE},
    {{"forward", "image", "out"}, IMAGE},
    {{"back", "image", "out"}, IMAGE},
    {{"strings", "text", "out"}, TABLE},
    {{"strings", "--binary", "list", "out"}, TABLE},
    {{"reduce", "table", "out"}, TABLE},
    {{"diff", "image", "other", "out"}, PATCH},
    {{"judge-patch", "image", "patch"}, -1},
    {{"apply", "image", "patch", "out"}, IMAGE},
    {{"scan", "image", "payload", "STATE"}, -1},
    {{"walk", "table", "payload", "STATE"}, -1},
    {{"scan-patched", "image", "patch", "payload", "STATE"}, -1},
    {{"served", "--sort", "image", "payload"}, -1},
    {{"report", "image", "payload"}, -1},
    {{"bounds", "table"}, -1},
    {{"forest", "--dot", "--order", "ORDER", "table", "BOUND"}, -1},
};
const uint32_t command_count = sizeof commands / sizeof *commands;

/* Each file is a new one: to cut an old one short can make the system wait for the disk. */
static void put_file(const char *name, const uint8_t *bytes, size_t length) {
    unlink(name);
    FILE *file = fopen(name, "wb");
    if (!file || fwrite(bytes, 1, length, file) != length || fclose(file)) found("a file for the command cannot be written");
}

/* The other image of diff is what the patch makes of the image, where it fits; else the image itself. */
static void put_other(const input *x) {
    static uint8_t room[1 << 20];
    reference_built made = reference_apply(x->of[IMAGE].bytes, x->of[IMAGE].length, x->of[PATCH].bytes, x->of[PATCH].length, room, sizeof room);
    put_file("other", made.refused ? x->of[IMAGE].bytes : room, made.refused ? x->of[IMAGE].length : made.length);
}

/* Where standard output and standard error went before a command had them; -1 where none has. */
static int outside[3] = {-1, -1, -1};

void end_command(void) {
    fflush(NULL);
    for (int file = 1; file < 3; file++) {
        if (outside[file] < 0) continue;
        dup2(outside[file], file);
        close(outside[file]);
        outside[file] = -1;
    }
}

/* Called where the program ends: within a command it should not. */
static void ended(void) {
    if (outside[1] >= 0) found("the command ended with trouble; what it said is in the file said");
}

/* Runs a program with these words; answers its exit status. What it says goes to a file. */
static int status_of(int count, char **words) {
    static int watched;
    if (!watched++) atexit(ended);
    fflush(NULL);
    unlink("said");
    int said = open("said", O_WRONLY | O_CREAT | O_TRUNC, 0666);
    if (said < 0) found("what the command says cannot be written");
    for (int file = 1; file < 3; file++) {
        outside[file] = dup(file);
        dup2(said, file);
    }
    close(said);
    int status = strcmp(words[1], "loader") ? command_main(count, words) : loader_main(count - 1, words + 1);
    end_command();
    return status;
}

/* Whether the reading refuses the first file among the words: then the command does. */
static int first_refused(const input *x, const command *c) {
    for (int i = 1; c->words[i]; i++) {
        if (!strcmp(c->words[i], "image")) return reference_judge_image(x->of[IMAGE].bytes, x->of[IMAGE].length) != 0;
        if (!strcmp(c->words[i], "table")) return reference_judge_table(x->of[TABLE].bytes, x->of[TABLE].length) != 0;
    }
    return 0;
}

/* What was written is accepted by the reading; a refusal writes nothing. */
static void hold_written(const input *x, const command *c, int status) {
    static uint8_t bytes[1 << 20];
    FILE *file = fopen("out", "rb");
    if ((file != NULL) != (status == 0 && c->writes >= 0)) found("the command wrote a file on a refusal, or none where it was done");
    if (!file) return;
    size_t length = fread(bytes, 1, sizeof bytes, file);
    fclose(file);
    unlink("out");
    uint32_t refused = c->writes == IMAGE ? reference_judge_image(bytes, length) : c->writes == TABLE ? reference_judge_table(bytes, length) : reference_judge_patch(x->of[IMAGE].bytes, x->of[IMAGE].length, bytes, length);
    if (refused) found("the command wrote a file that the reading refuses");
}

void run_command(const input *x) {
    uint32_t which = x->room * 7919 + x->state * 31 + x->order * 5 + x->bound;
    const command *c = &commands[which % command_count];
    char numbers[3][16], *words[10] = {(char *)"kamordast"};
    int count = 1;
    snprintf(numbers[0], sizeof *numbers, "%u", (unsigned)x->order);
    snprintf(numbers[1], sizeof *numbers, "%u", (unsigned)(x->bound & 65535));
    snprintf(numbers[2], sizeof *numbers, "%u", (unsigned)x->state);
    for (; c->words[count - 1]; count++) {
        const char *word = c->words[count - 1];
        words[count] = !strcmp(word, "ORDER") ? numbers[0] : !strcmp(word, "BOUND") ? numbers[1] : !strcmp(word, "STATE") ? numbers[2] : (char *)word;
        if (!strcmp(word, "other")) put_other(x);
        for (uint32_t kind = 0; kind < KINDS; kind++)
            if (!strcmp(word, kind_names[kind])) put_file(word, x->of[kind].bytes, x->of[kind].length);
    }
    int status = status_of(count, words);
    if (status != 0 && status != 1) found("the command ended with a status other than 0 and 1; what it said is in the file said");
    if (status == 0 && first_refused(x, c)) found("the command took a file that the reading refuses");
    hold_written(x, c, status);
    coverage_answer(x->operation + which % command_count, (uint32_t)status, 0);
}
