/* A library to load before a program: counts its allocations, and refuses that of the number which the variable REFUSE
   names, from 1; where MANY is set, so many from there on, and where STEP is set, each of that distance. Where the variable
   COUNT names a file, the number of all allocations stands there afterwards, and that of all bytes that they asked for in
   the file that BYTES names. */
#define _GNU_SOURCE
#include <dlfcn.h>
#include <errno.h>
#include <fcntl.h>
#include <stdatomic.h>
#include <stdio.h>
#include <stdlib.h>
#include <unistd.h>

/* written anew at each allocation, since a program may end without what runs at an exit */
static void tell(const char *variable, int *file, long number) {
    char text[24];
    if (*file == -2) {
        const char *name = getenv(variable);
        *file = name ? open(name, O_WRONLY | O_CREAT | O_TRUNC, 0644) : -1;
    }
    if (*file >= 0 && pwrite(*file, text, snprintf(text, sizeof text, "%ld\n", number), 0) < 0) abort();
}

static long number_in(const char *name, long otherwise) {
    const char *word = getenv(name);
    return word ? atol(word) : otherwise;
}

static int is_refused(size_t size) {
    static long first = -1, many, step;
    static int counts = -2, sums = -2;
    static atomic_long seen, asked;
    long number = ++seen, bytes = asked += size;
    if (first < 0) {
        first = number_in("REFUSE", 0);
        many = number_in("MANY", 1);
        step = number_in("STEP", 1);
    }
    tell("COUNT", &counts, number);
    tell("BYTES", &sums, bytes);
    return first > 0 && number >= first && (number - first) % step == 0 && (number - first) / step < many;
}

#define REAL(name) \
    static __typeof__(name) *real; \
    if (!real) real = (__typeof__(name) *)dlsym(RTLD_NEXT, #name)

void *malloc(size_t size) {
    REAL(malloc);
    if (is_refused(size)) { errno = ENOMEM; return NULL; }
    return real(size);
}

/* dlsym may itself ask for zeroed memory, before the real function is known: that comes out of a place of its own */
void *calloc(size_t count, size_t size) {
    static __typeof__(calloc) *real;
    static char early[4096];
    static int is_looking;
    static size_t used;
    if (!real && is_looking) {
        void *place = early + used;
        used += (count * size + 15) / 16 * 16;
        return used <= sizeof early ? place : NULL;
    }
    if (!real) {
        is_looking = 1;
        real = (__typeof__(calloc) *)dlsym(RTLD_NEXT, "calloc");
        is_looking = 0;
    }
    if (is_refused(count * size)) { errno = ENOMEM; return NULL; }
    return real(count, size);
}

void *realloc(void *old, size_t size) {
    REAL(realloc);
    if (is_refused(size)) { errno = ENOMEM; return NULL; }
    return real(old, size);
}

void *aligned_alloc(size_t align, size_t size) {
    REAL(aligned_alloc);
    if (is_refused(size)) { errno = ENOMEM; return NULL; }
    return real(align, size);
}

int posix_memalign(void **place, size_t align, size_t size) {
    REAL(posix_memalign);
    if (is_refused(size)) return ENOMEM;
    return real(place, align, size);
}
