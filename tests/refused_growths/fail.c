// Refuses growths of a program, loaded by LD_PRELOAD: the one of the number FAIL_AT, or all from the number FAIL_FROM on, both
// counted from 1. A byte goes to descriptor 9 for each growth that is refused, where that is open.
#define _GNU_SOURCE
#include <dlfcn.h>
#include <stddef.h>
#include <stdlib.h>
#include <unistd.h>

enum { MARKS = 9 };

static long number_in(const char *name)
{
    const char *text = getenv(name);
    return text ? atol(text) : 0;
}

static int is_refused(void)
{
    static long count = 0, at = -1, from = 0;
    if (at < 0) {
        at = number_in("FAIL_AT");
        from = number_in("FAIL_FROM");
    }
    count++;
    if (count != at && (from == 0 || count < from))
        return 0;
    if (write(MARKS, "x", 1) < 0) {
        // no one counts
    }
    return 1;
}

void *malloc(size_t size)
{
    static void *(*real)(size_t);
    if (!real)
        real = dlsym(RTLD_NEXT, "malloc");
    return is_refused() ? NULL : real(size);
}

void *realloc(void *block, size_t size)
{
    static void *(*real)(void *, size_t);
    if (!real)
        real = dlsym(RTLD_NEXT, "realloc");
    return is_refused() ? NULL : real(block, size);
}
