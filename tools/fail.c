// Preloaded before a program: makes one of its calls of the system fail, that of the name FAIL_CALL and of the number
// FAIL_AT, counted from 1, with the error FAIL_WITH. The failure makes the file that FAIL_TOLD names, by which the caller
// knows that there was one.
#define _GNU_SOURCE
#include <dlfcn.h>
#include <errno.h>
#include <fcntl.h>
#include <stdarg.h>
#include <stdlib.h>
#include <string.h>
#include <sys/stat.h>
#include <unistd.h>

static unsigned long asked;

// Whether the call that is made now is the one to fail.
static int fails(const char *call) {
    const char *name = getenv("FAIL_CALL"), *at = getenv("FAIL_AT"), *with = getenv("FAIL_WITH");
    if (!name || !at || !with || strcmp(name, call) != 0 || ++asked != strtoul(at, 0, 10)) return 0;
    const char *told = getenv("FAIL_TOLD");
    if (told) {
        int (*real)(const char *, int, ...) = dlsym(RTLD_NEXT, "open");
        int file = real(told, O_CREAT | O_WRONLY, 0600);
        if (file >= 0) close(file);
    }
    errno = atoi(with);
    return 1;
}

int statx(int folder, const char *path, int flags, unsigned mask, struct statx *found) {
    static int (*real)(int, const char *, int, unsigned, struct statx *);
    if (!real) real = dlsym(RTLD_NEXT, "statx");
    return fails("statx") ? -1 : real(folder, path, flags, mask, found);
}

int open(const char *path, int flags, ...) {
    static int (*real)(const char *, int, ...);
    if (!real) real = dlsym(RTLD_NEXT, "open");
    va_list rest;
    va_start(rest, flags);
    int mode = flags & O_CREAT ? va_arg(rest, int) : 0;
    va_end(rest);
    return fails("open") ? -1 : real(path, flags, mode);
}

int openat(int folder, const char *path, int flags, ...) {
    static int (*real)(int, const char *, int, ...);
    if (!real) real = dlsym(RTLD_NEXT, "openat");
    va_list rest;
    va_start(rest, flags);
    int mode = flags & O_CREAT ? va_arg(rest, int) : 0;
    va_end(rest);
    return fails("openat") ? -1 : real(folder, path, flags, mode);
}

ssize_t getdents64(int folder, void *entries, size_t room) {
    static ssize_t (*real)(int, void *, size_t);
    if (!real) real = dlsym(RTLD_NEXT, "getdents64");
    return fails("getdents64") ? -1 : real(folder, entries, room);
}

ssize_t read(int file, void *bytes, size_t room) {
    static ssize_t (*real)(int, void *, size_t);
    if (!real) real = dlsym(RTLD_NEXT, "read");
    return fails("read") ? -1 : real(file, bytes, room);
}

char *realpath(const char *path, char *resolved) {
    static char *(*real)(const char *, char *);
    if (!real) real = dlsym(RTLD_NEXT, "realpath");
    return fails("realpath") ? 0 : real(path, resolved);
}
