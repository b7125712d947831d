/* What the proved code of a program calls besides the C library: the heap, arguments, the environment and errno, for any
 * 64-bit Linux. It stands in the static programs, the wheel's library and the programs for aarch64, in the place of the
 * toolchain's two archives. No proof covers it. */
#define _GNU_SOURCE
#include <errno.h>
#include <signal.h>
#include <stdint.h>
#include <stdlib.h>
#include <string.h>
#include <sys/stat.h>
#include <sys/syscall.h>
#include <unistd.h>

/* whether there is memory, and where; the place is never null */
typedef struct {
    uint64_t ok;
    void *place;
} tried;

static char nothing;

static tried answer(void *place) {
    tried it = {place != NULL, place ? place : &nothing};
    return it;
}

tried rattle_alloc(uint64_t size, uint64_t align) {
    return answer(malloc(size ? size : align));
}

tried rattle_realloc(void *place, uint64_t kept, uint64_t size, uint64_t align) {
    (void)kept;
    return answer(realloc(place, size ? size : align));
}

void rattle_dealloc(void *place) {
    free(place);
}

int rattle_errno(void) {
    return errno;
}

void rattle_set_errno(int number) {
    errno = number;
}

#ifndef IS_LIBRARY
static int count;
static char **words;

/* the length of a word that was put, -1 where there is none, -2 where it is longer than the room */
static int64_t put(const char *word, char *to, uint64_t room) {
    if (!word)
        return -1;
    size_t size = strlen(word);
    if (size > room)
        return -2;
    memcpy(to, word, size);
    return (int64_t)size;
}

uint64_t rattle_arg_count(void) {
    return (uint64_t)count;
}

int64_t rattle_arg(uint64_t at, char *to, uint64_t room) {
    return put(at < (uint64_t)count ? words[at] : NULL, to, room);
}

int64_t rattle_env(const char *name, char *to, uint64_t room) {
    return put(getenv(name), to, room);
}

int64_t rattle_env_at(uint64_t at, char *to, uint64_t room) {
    extern char **environ;
    if (!environ)
        return -1;
    for (uint64_t i = 0; i < at; i++)
        if (!environ[i])
            return -1;
    return put(environ[at], to, room);
}

int rattle_main(void);

int main(int given, char **given_words) {
    count = given;
    words = given_words;
    return rattle_main();
}
#endif

/* names of glibc that another C library does not have; the library must do without them */
#if defined(IS_LIBRARY) || !defined(__GLIBC__)
int __xpg_strerror_r(int number, char *to, size_t room) {
    const char *text = strerror(number);
    size_t size = strlen(text);
    if (!room)
        return ERANGE;
    if (size >= room)
        size = room - 1;
    memcpy(to, text, size);
    to[size] = 0;
    return 0;
}
#endif

#ifndef __GLIBC__
long __sysv_signal(int number, long what) {
    return (long)signal(number, (void (*)(int))what);
}

ssize_t __write(int file, const void *from, size_t size) {
    return write(file, from, size);
}

struct statx;
int statx(int folder, const char *restrict name, int flags, unsigned mask, struct statx *restrict to) {
    return (int)syscall(SYS_statx, folder, name, flags, mask, to);
}
#endif

/* what the processor has, which a program for x86-64-v2 asks at its start */
#if defined(__x86_64__) && !defined(__GLIBC__)
#include <cpuid.h>
static struct {
    unsigned has[4], active[4];
} leaves[3];

const void *__x86_get_cpuid_feature_leaf(unsigned leaf) {
    if (leaf == 0 || leaf == 2) {
        unsigned *it = leaves[leaf].active;
        __get_cpuid(leaf ? 0x80000001 : 1, it, it + 1, it + 2, it + 3);
    }
    return &leaves[leaf < 3 ? leaf : 1];
}
#elif !defined(__x86_64__)
static const unsigned all[8] = {~0u, ~0u, ~0u, ~0u, ~0u, ~0u, ~0u, ~0u};

const void *__x86_get_cpuid_feature_leaf(unsigned leaf) {
    (void)leaf;
    return all;
}
#endif
