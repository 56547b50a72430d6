// Preloaded into a program, moves at most PART bytes at a time through its input, output and standard error, and makes one call of
// each go wrong. Of stream N, from 0, it is the call whose number, from 1, stands in BAD_N. It fails, where HITCH is `interruption` as a
// call does that a signal interrupts, or where it is `nothing` takes nothing. At the program's end it writes a word for each call
// into the file that STREAMS_LOG names: the stream's letter and how many newlines it moved, or the letter and `!`.
#define _GNU_SOURCE
#include <errno.h>
#include <fcntl.h>
#include <stdio.h>
#include <stdlib.h>
#include <string.h>
#include <sys/syscall.h>
#include <unistd.h>

#define STREAMS 3
// The bytes of all words of a run, and those of one.
#define ROOM (1 << 20)
#define WORD 16

static const char *const BAD[STREAMS] = {"BAD_0", "BAD_1", "BAD_2"};
static const char LETTERS[STREAMS] = {'r', 'w', 'e'};
static long calls[STREAMS];
static char words[ROOM];
static size_t length;

static void note(int stream, const char *bytes, ssize_t moved) {
    long newlines = 0;
    for (ssize_t at = 0; at < moved; at++)
        newlines += bytes[at] == '\n';
    if (length + WORD > ROOM)
        abort();
    if (moved < 0)
        length += (size_t)snprintf(words + length, WORD, "%c! ", LETTERS[stream]);
    else
        length += (size_t)snprintf(words + length, WORD, "%c%ld ", LETTERS[stream], newlines);
}

static ssize_t move(long call, int file, void *bytes, size_t count) {
    if (file < 0 || file >= STREAMS)
        return syscall(call, file, bytes, count);
    const char *number = getenv(BAD[file]), *hitch = getenv("HITCH"), *part = getenv("PART");
    if (++calls[file] == (number ? atol(number) : 0)) {
        note(file, bytes, -1);
        errno = hitch && !strcmp(hitch, "interruption") ? EINTR : EIO;
        return hitch && !strcmp(hitch, "nothing") ? 0 : -1;
    }
    size_t most = part ? (size_t)atol(part) : count;
    ssize_t moved = syscall(call, file, bytes, count < most ? count : most);
    note(file, bytes, moved);
    return moved;
}

ssize_t read(int file, void *bytes, size_t count) { return move(SYS_read, file, bytes, count); }

ssize_t write(int file, const void *bytes, size_t count) { return move(SYS_write, file, (void *)bytes, count); }

__attribute__((destructor)) static void tell(void) {
    const char *name = getenv("STREAMS_LOG");
    int file = name ? open(name, O_WRONLY | O_CREAT | O_TRUNC, 0600) : -1;
    if (file >= 0) {
        dprintf(file, "%s\n", words);
        close(file);
    }
}

// A program may end by this call, which runs no destructors.
void _exit(int status) {
    tell();
    for (;;)
        syscall(SYS_exit_group, status);
}
