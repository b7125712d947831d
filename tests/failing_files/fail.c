// Fails reads and writes of a program, loaded by LD_PRELOAD. Reads and writes are counted from 1 on all descriptors alike.
//
// - MEMORY=FILE: what the system says of its memory is what this file has.
// - FAIL_READ=N, FAIL_WRITE=N: the read, or write, of this number fails.
// - READ_ERROR=N: the error of a failed read, in place of EIO.
// - FULL_AFTER=N: each write after this many fails, but none to standard error.
// - SHORT_READS=N, SHORT_WRITES=N: a read, or write, moves at most this many bytes.
#define _GNU_SOURCE
#include <dlfcn.h>
#include <errno.h>
#include <stdarg.h>
#include <stddef.h>
#include <stdlib.h>
#include <string.h>
#include <sys/types.h>
#include <unistd.h>

struct limits {
    long failing, most, count;
};

static long number_in(const char *name)
{
    const char *text = getenv(name);
    return text ? atol(text) : 0;
}

static int fails(struct limits *of, const char *failing, const char *most)
{
    if (of->count == 0) {
        of->failing = number_in(failing);
        of->most = number_in(most);
    }
    return ++of->count == of->failing;
}

static size_t at_most(const struct limits *of, size_t size)
{
    return of->most > 0 && (size_t)of->most < size ? (size_t)of->most : size;
}

ssize_t read(int file, void *into, size_t size)
{
    static ssize_t (*real)(int, void *, size_t);
    static struct limits limits;
    if (!real)
        real = dlsym(RTLD_NEXT, "read");
    if (fails(&limits, "FAIL_READ", "SHORT_READS")) {
        errno = number_in("READ_ERROR") ? (int)number_in("READ_ERROR") : EIO;
        return -1;
    }
    return real(file, into, at_most(&limits, size));
}

ssize_t write(int file, const void *from, size_t size)
{
    static ssize_t (*real)(int, const void *, size_t);
    static struct limits limits;
    if (!real)
        real = dlsym(RTLD_NEXT, "write");
    const char *full = getenv("FULL_AFTER");
    if (fails(&limits, "FAIL_WRITE", "SHORT_WRITES") || (full && file != STDERR_FILENO && limits.count > atol(full))) {
        errno = ENOSPC;
        return -1;
    }
    return real(file, from, at_most(&limits, size));
}

int open(const char *name, int flags, ...)
{
    static int (*real)(const char *, int, ...);
    const char *memory = getenv("MEMORY");
    va_list rest;
    mode_t mode;
    if (!real)
        real = dlsym(RTLD_NEXT, "open");
    va_start(rest, flags);
    mode = va_arg(rest, mode_t);
    va_end(rest);
    return real(memory && strcmp(name, "/proc/meminfo") == 0 ? memory : name, flags, mode);
}
