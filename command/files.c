#define _POSIX_C_SOURCE 200809L
#include "files.h"

#include <errno.h>
#include <fcntl.h>
#include <libgen.h>
#include <stdio.h>
#include <stdlib.h>
#include <string.h>
#include <sys/stat.h>
#include <unistd.h>

/* What is put behind a name for the file beside its place, and how many letters mkstemp(3) adds to it that no file has yet. */
static const char ending[] = ".kamordast-";
enum { LETTERS = 6 };

/* The file beside the final place, taken away again where the run fails. */
static char *unfinished;

static const char look[] = "check the name, and that you may read the file";
static const char free_place[] = "check that the folder is there, that you may write in it and that the disk has room; what stood under the name is as it was";

/* Ends the run: says what is wrong with a file and what to do. */
static void trouble(const char *name, const char *what, const char *advice) {
    int number = errno;
    if (unfinished) unlink(unfinished);
    if (number) fprintf(stderr, "kamordast: %s: %s: %s\n", name, what, strerror(number));
    else fprintf(stderr, "kamordast: %s: %s\n", name, what);
    fprintf(stderr, "  what to do: %s\n", advice);
    exit(3);
}

size_t read_piece(int file, const char *name, uint8_t *bytes, size_t most) {
    size_t length = 0;
    while (length < most) {
        ssize_t got = read(file, bytes + length, most - length);
        if (got < 0 && errno == EINTR) continue;
        if (got < 0) trouble(name, "cannot be read", look);
        if (got == 0) break;
        length += (size_t)got;
    }
    return length;
}

int open_file(const char *name) {
    struct stat found;
    int file = open(name, O_RDONLY);
    if (file < 0) trouble(name, "cannot be opened", look);
    if (fstat(file, &found)) trouble(name, "cannot be read", look);
    if (S_ISDIR(found.st_mode)) {
        errno = 0;
        trouble(name, "is a directory", "name a file");
    }
    return file;
}

size_t read_file(const char *name, uint8_t *bytes, size_t most) {
    int file = open_file(name);
    size_t length = read_piece(file, name, bytes, most + 1);
    close(file);
    return length;
}

static void write_all(int file, const char *name, const uint8_t *bytes, size_t length) {
    while (length > 0) {
        ssize_t done = write(file, bytes, length);
        if (done < 0 && errno == EINTR) continue;
        if (done < 0) trouble(name, "cannot be written", free_place);
        bytes += done;
        length -= (size_t)done;
    }
}

void write_file(const char *name, const uint8_t *bytes, size_t length, accepts *accepted) {
    size_t stem = strlen(name) + sizeof ending - 1, room = stem + LETTERS + 1;
    char *beside = malloc(room), *copy = strdup(name);
    uint8_t *back = malloc(length + 1);
    if (!beside || !copy || !back) trouble(name, "there is not memory enough", "close other programs and try again");
    snprintf(beside, room, "%s%s", name, ending);
    memset(beside + stem, 'X', LETTERS); /* where the letters go */
    beside[stem + LETTERS] = 0;
    struct stat found;
    if (stat(name, &found) == 0 && S_ISDIR(found.st_mode)) {
        errno = 0;
        trouble(name, "is a directory", "name a file in it");
    }
    int file = mkstemp(beside);
    if (file < 0) trouble(name, "cannot be written beside its place", free_place);
    unfinished = beside;
    mode_t mask = umask(0);
    umask(mask);
    if (fchmod(file, 0666 & ~mask)) trouble(name, "cannot be given its rights", free_place);
    write_all(file, name, bytes, length);
    if (fsync(file)) trouble(name, "cannot be synced", free_place);
    if (close(file)) trouble(name, "cannot be closed", free_place);
    file = open(beside, O_RDONLY);
    if (file < 0) trouble(name, "cannot be read back", free_place);
    size_t got = read_piece(file, name, back, length + 1);
    close(file);
    errno = 0;
    if (got != length || memcmp(back, bytes, length)) trouble(name, "was not read back as it was written", "the disk is full or failing: take another; what stood under the name is as it was");
    if (!accepted(back, got)) trouble(name, "was not accepted when it was read back", "keep the input and call the engineers; what stood under the name is as it was");
    if (rename(beside, name)) trouble(name, "cannot be given its name", free_place);
    unfinished = NULL;
    /* The name itself is synced too, where the folder can be opened. */
    int folder = open(dirname(copy), O_RDONLY);
    if (folder >= 0) {
        fsync(folder);
        close(folder);
    }
    free(back);
    free(copy);
    free(beside);
}
