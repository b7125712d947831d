// Preloaded into `rattle build -o NAME.o` (LD_PRELOAD): when that starts clang on the module that it has written, the module is first
// copied to NAME.bc, and the words of the call to NAME.bc.words, beside the object. Where that can't be done nothing is kept. What is
// started, and with which words, stays the same.
#define _GNU_SOURCE
#include <dlfcn.h>
#include <limits.h>
#include <spawn.h>
#include <stdio.h>
#include <string.h>
#include <unistd.h>

static const char module[] = "module.bc";

// The folder in which the next program is to start.
static __thread char folder[PATH_MAX];

// Sets `object` to the path of the object that this process makes, without `.o`.
static int object_of(char *object)
{
    static char words[1 << 20];
    FILE *file = fopen("/proc/self/cmdline", "r");
    if (!file)
        return 0;
    const char *end = words + fread(words, 1, sizeof words - 1, file);
    fclose(file);
    for (const char *word = words; word < end; word += strlen(word) + 1) {
        const char *next = word + strlen(word) + 1;
        size_t length = next < end ? strlen(next) : 0;
        if (!strcmp(word, "-o") && length > 2 && length < PATH_MAX && !strcmp(next + length - 2, ".o")) {
            snprintf(object, PATH_MAX, "%.*s", (int)(length - 2), next);
            return 1;
        }
    }
    return 0;
}

static int copy(FILE *from, FILE *to)
{
    static char bytes[1 << 16];
    size_t count;
    while ((count = fread(bytes, 1, sizeof bytes, from)) > 0)
        if (fwrite(bytes, 1, count, to) != count)
            return 0;
    return !ferror(from);
}

static void keep(char *const words[])
{
    char object[PATH_MAX], kept[PATH_MAX + 16], kept_words[PATH_MAX + 16], written[PATH_MAX + 16];
    if (!object_of(object))
        return;
    snprintf(kept, sizeof kept, "%s.bc", object);
    snprintf(kept_words, sizeof kept_words, "%s.bc.words", object);
    snprintf(written, sizeof written, "%s/%s", *folder ? folder : ".", module);
    FILE *from = fopen(written, "rb"), *to = fopen(kept, "wb"), *list = fopen(kept_words, "w");
    int is_kept = from && to && list && copy(from, to);
    for (int i = 1; is_kept && words[i]; i++)
        is_kept = fprintf(list, "%s\n", words[i]) > 0;
    if (from)
        fclose(from);
    is_kept &= to && !fclose(to);
    is_kept &= list && !fclose(list);
    if (!is_kept) {
        unlink(kept);
        unlink(kept_words);
    }
}

int posix_spawn_file_actions_addchdir_np(posix_spawn_file_actions_t *actions, const char *path)
{
    int (*next)(posix_spawn_file_actions_t *, const char *) = dlsym(RTLD_NEXT, "posix_spawn_file_actions_addchdir_np");
    snprintf(folder, sizeof folder, "%s", path);
    return next(actions, path);
}

int posix_spawnp(pid_t *pid, const char *file, const posix_spawn_file_actions_t *actions, const posix_spawnattr_t *attributes,
    char *const words[], char *const environment[])
{
    int (*next)(pid_t *, const char *, const posix_spawn_file_actions_t *, const posix_spawnattr_t *, char *const[], char *const[]) =
        dlsym(RTLD_NEXT, "posix_spawnp");
    for (int i = 1; words[0] && words[i]; i++)
        if (!strcmp(words[i], module))
            keep(words);
    *folder = 0;
    return next(pid, file, actions, attributes, words, environment);
}
