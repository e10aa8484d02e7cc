// Preloaded before a program: makes one of its allocations fail, the one numbered REFUSE_AT, counted from 1; where
// REFUSE_BEHIND names a file, from the opening of that file on. A refusal makes the file that REFUSE_TOLD names, by which
// the caller knows that there was one.
#define _GNU_SOURCE
#include <dlfcn.h>
#include <errno.h>
#include <fcntl.h>
#include <stdarg.h>
#include <stdlib.h>
#include <string.h>
#include <unistd.h>

static unsigned long asked;
static int opened;

// Keeps whether this file is the one behind whose opening allocations are counted.
static void open_said(const char *path) {
    const char *behind = getenv("REFUSE_BEHIND");
    if (behind && strcmp(behind, path) == 0) opened = 1;
}

// Whether the allocation that is asked for now is the one to fail.
static int refused(void) {
    static unsigned long at;
    static int known;
    if (!known) {
        const char *number = getenv("REFUSE_AT");
        at = number ? strtoul(number, 0, 10) : 0;
        if (!getenv("REFUSE_BEHIND")) opened = 1;
        known = 1;
    }
    if (!opened || ++asked != at) return 0;
    const char *told = getenv("REFUSE_TOLD");
    if (told) {
        int file = open(told, O_CREAT | O_WRONLY, 0600);
        if (file >= 0) close(file);
    }
    errno = ENOMEM;
    return 1;
}

void *malloc(size_t size) {
    static void *(*real)(size_t);
    if (!real) real = dlsym(RTLD_NEXT, "malloc");
    return refused() ? 0 : real(size);
}

void *calloc(size_t count, size_t size) {
    static void *(*real)(size_t, size_t);
    if (!real) real = dlsym(RTLD_NEXT, "calloc");
    return refused() ? 0 : real(count, size);
}

void *realloc(void *old, size_t size) {
    static void *(*real)(void *, size_t);
    if (!real) real = dlsym(RTLD_NEXT, "realloc");
    return refused() ? 0 : real(old, size);
}

void *aligned_alloc(size_t align, size_t size) {
    static void *(*real)(size_t, size_t);
    if (!real) real = dlsym(RTLD_NEXT, "aligned_alloc");
    return refused() ? 0 : real(align, size);
}

int posix_memalign(void **to, size_t align, size_t size) {
    static int (*real)(void **, size_t, size_t);
    if (!real) real = dlsym(RTLD_NEXT, "posix_memalign");
    return refused() ? ENOMEM : real(to, align, size);
}

int openat(int folder, const char *path, int flags, ...) {
    static int (*real)(int, const char *, int, ...);
    if (!real) real = dlsym(RTLD_NEXT, "openat");
    va_list rest;
    va_start(rest, flags);
    int mode = flags & O_CREAT ? va_arg(rest, int) : 0;
    va_end(rest);
    open_said(path);
    return real(folder, path, flags, mode);
}

int open(const char *path, int flags, ...) {
    va_list rest;
    va_start(rest, flags);
    int mode = flags & O_CREAT ? va_arg(rest, int) : 0;
    va_end(rest);
    return openat(AT_FDCWD, path, flags, mode);
}
