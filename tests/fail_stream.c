/* A library to load before a program: lets reads of standard input and writes of standard output move few bytes, and makes
   one of them fail. MOST is the greatest number of bytes that a read or a write moves. FAIL names the one that fails:
   `read` or `write`, and its number from 1. Where INTERRUPT is set, it fails as one that a signal interrupts. Where the
   variable COUNT names a file, the numbers of reads and of writes stand there afterwards. */
#define _GNU_SOURCE
#include <dlfcn.h>
#include <errno.h>
#include <fcntl.h>
#include <stdio.h>
#include <stdlib.h>
#include <string.h>
#include <unistd.h>

static long seen[2];

/* written anew each time, since a program may end without what runs at an exit */
static void tell(void) {
    static int file = -2;
    char text[64];
    if (file == -2) {
        const char *name = getenv("COUNT");
        file = name ? open(name, O_WRONLY | O_CREAT | O_TRUNC, 0644) : -1;
    }
    if (file >= 0 && pwrite(file, text, snprintf(text, sizeof text, "%ld %ld\n", seen[0], seen[1]), 0) < 0) abort();
}

/* how many bytes the next read (0) or write (1) may move, or -1 where it fails */
static ssize_t allowed(int kind, size_t size) {
    const char *most = getenv("MOST"), *fail = getenv("FAIL"), *word = kind ? "write " : "read ";
    seen[kind]++;
    tell();
    if (fail && !strncmp(fail, word, strlen(word)) && atol(fail + strlen(word)) == seen[kind]) {
        errno = getenv("INTERRUPT") ? EINTR : EIO;
        return -1;
    }
    return most && (size_t)atol(most) < size ? (size_t)atol(most) : size;
}

ssize_t read(int file, void *room, size_t size) {
    static __typeof__(read) *real;
    if (!real) real = (__typeof__(read) *)dlsym(RTLD_NEXT, "read");
    ssize_t most = file == 0 ? allowed(0, size) : (ssize_t)size;
    return most < 0 ? most : real(file, room, most);
}

ssize_t write(int file, const void *from, size_t size) {
    static __typeof__(write) *real;
    if (!real) real = (__typeof__(write) *)dlsym(RTLD_NEXT, "write");
    ssize_t most = file == 1 ? allowed(1, size) : (ssize_t)size;
    return most < 0 ? most : real(file, from, most);
}
