#define _GNU_SOURCE
#include "program.h"

#include <errno.h>
#include <fcntl.h>
#include <poll.h>
#include <sched.h>
#include <signal.h>
#include <spawn.h>
#include <stdio.h>
#include <string.h>
#include <sys/ioctl.h>
#include <sys/wait.h>
#include <unistd.h>

#include "support.h"

extern char **environ;

/* The words that start the program, and the file that takes what it prints. */
static char **start;
static int printed;

void use_program(int count, char **words) {
    FILE *file = tmpfile();
    if (count < 2 || !file) fail("the program is to be named, and a file is to be made for what it prints", (uint64_t)count);
    start = words + 1;
    printed = fileno(file);
    /* A program need not read to the end of an input that is too long. */
    signal(SIGPIPE, SIG_IGN);
}

/* Starts the program between a pipe and the file. */
static pid_t started(int input) {
    posix_spawn_file_actions_t ends;
    pid_t program;
    if (posix_spawn_file_actions_init(&ends) || posix_spawn_file_actions_adddup2(&ends, input, 0) || posix_spawn_file_actions_adddup2(&ends, printed, 1) ||
        posix_spawn(&program, start[0], &ends, NULL, start, environ))
        fail(start[0], 0);
    posix_spawn_file_actions_destroy(&ends);
    return program;
}

/* Waits until the program has read what stands in the pipe, or will read no more. */
static void drained(int pipe_end) {
    struct pollfd end = {pipe_end, 0, 0};
    int left = 1;
    while (ioctl(pipe_end, FIONREAD, &left) == 0 && left > 0 && poll(&end, 1, 0) == 0) sched_yield();
}

/* Fills the pipe at once, or in one case of six in pieces, each after the one before was read, so that the program's reads come short. */
static void feed(int pipe_end, const uint8_t *input, size_t length, uint64_t number) {
    int in_pieces = number % 6 == 0;
    while (length > 0) {
        ssize_t done = write(pipe_end, input, in_pieces ? 1 + length / (2 + number % 5) : length);
        if (done < 0 && errno == EINTR) continue;
        if (done < 0) return; /* the program has read enough */
        input += done;
        length -= (size_t)done;
        if (in_pieces) drained(pipe_end);
    }
}

void expect_text(const uint8_t *input, size_t length, const char *text, size_t text_length, uint64_t number) {
    static char got[65536];
    int ends[2], status;
    if (ftruncate(printed, 0) || lseek(printed, 0, SEEK_SET) || pipe2(ends, O_CLOEXEC)) fail("a pipe and a file", number);
    pid_t program = started(ends[0]);
    close(ends[0]);
    feed(ends[1], input, length, number);
    close(ends[1]);
    if (waitpid(program, &status, 0) != program || !WIFEXITED(status) || WEXITSTATUS(status) != 0) fail("the program's status is not 0", number);
    ssize_t had = pread(printed, got, sizeof got, 0);
    if (had == (ssize_t)text_length && memcmp(got, text, text_length) == 0) return;
    printf("of %zu bytes the program printed:\n%.*s\nand not:\n%.*s\n", length, (int)(had < 0 ? 0 : had), got, (int)text_length, text);
    fail("the text differs", number);
}
