/* The host of a proved program that was made into C: files, words and the environment. No proof covers this. */
#include <errno.h>
#include <fcntl.h>
#include <signal.h>
#include <stdio.h>
#include <stdlib.h>
#include <string.h>
#include <sys/stat.h>
#include <unistd.h>

#ifdef __TINYC__ /* it has no such builtins */
static int leading(unsigned long long number) {
    int count = 0;
    for (; !(number >> 63); number <<= 1)
        count++;
    return count;
}
static int trailing(unsigned long long number) {
    int count = 0;
    for (; !(number & 1); number >>= 1)
        count++;
    return count;
}
int __builtin_clzll(unsigned long long number) { return leading(number); }
int __builtin_ctzll(unsigned long long number) { return trailing(number); }
int __builtin_clz(unsigned number) { return leading(number) - 32; }
int __builtin_ctz(unsigned number) { return trailing(number); }
#endif

struct Z_host_instance_t {
    Z_program_instance_t *program;
    int count;
    char **words;
};
typedef struct Z_host_instance_t host;

/* Where the machine has its high bytes first, wasm2c keeps the memory backwards. */
static void put(host *it, u64 to, const void *from, u64 size) {
    wasm_rt_memory_t *memory = Z_programZ_memory(it->program);
#if WABT_BIG_ENDIAN
    for (u64 i = 0; i < size; i++)
        memory->data[memory->size - 1 - to - i] = ((const u8 *)from)[i];
#else
    memcpy(memory->data + to, from, size);
#endif
}

static void get(host *it, void *to, u64 from, u64 size) {
    wasm_rt_memory_t *memory = Z_programZ_memory(it->program);
#if WABT_BIG_ENDIAN
    for (u64 i = 0; i < size; i++)
        ((u8 *)to)[i] = memory->data[memory->size - 1 - from - i];
#else
    memcpy(to, memory->data + from, size);
#endif
}

static char room[1 << 16];

/* a name that the program has in its memory, or NULL where it is too long */
static char *name_at(host *it, u64 at, u64 length) {
    if (length >= sizeof room)
        return NULL;
    get(it, room, at, length);
    room[length] = 0;
    return room;
}

static u64 put_word(host *it, const char *word, u64 to, u64 size) {
    if (!word)
        return (u64)-1;
    u64 length = strlen(word);
    if (length > size)
        return (u64)-2;
    put(it, to, word, length);
    return length;
}

u64 Z_hostZ_read(host *it, u32 file, u64 to, u64 size) {
    ssize_t count = read((int)file, room, size < sizeof room ? size : sizeof room);
    if (count < 0)
        return (u64)-errno;
    put(it, to, room, (u64)count);
    return (u64)count;
}

u64 Z_hostZ_write(host *it, u32 file, u64 from, u64 size) {
    if (size > sizeof room)
        size = sizeof room;
    get(it, room, from, size);
    ssize_t count = write((int)file, room, size);
    return count < 0 ? (u64)-errno : (u64)count;
}

u32 Z_hostZ_open(host *it, u64 at, u64 length, u32 flags) {
    char *name = name_at(it, at, length);
    if (!name)
        return (u32)-ENAMETOOLONG;
    int file = flags & 3 ? open(name, O_WRONLY | O_CREAT | O_TRUNC, 0666) : open(name, O_RDONLY);
    return file < 0 ? (u32)-errno : (u32)file;
}

u32 Z_hostZ_close(host *it, u32 file) {
    (void)it;
    return close((int)file) ? (u32)-errno : 0;
}

u32 Z_hostZ_rename(host *it, u64 from, u64 from_length, u64 to, u64 to_length) {
    static char other[sizeof room];
    char *name = name_at(it, from, from_length);
    if (!name)
        return (u32)-ENAMETOOLONG;
    memcpy(other, name, from_length + 1);
    name = name_at(it, to, to_length);
    if (!name)
        return (u32)-ENAMETOOLONG;
    return rename(other, name) ? (u32)-errno : 0;
}

u32 Z_hostZ_remove(host *it, u64 at, u64 length) {
    char *name = name_at(it, at, length);
    if (!name)
        return (u32)-ENAMETOOLONG;
    return unlink(name) ? (u32)-errno : 0;
}

u32 Z_hostZ_stat(host *it, u32 file, u64 at, u64 length, u64 to) {
    struct stat found;
    char *name = name_at(it, at, length);
    if (!name)
        return (u32)-ENAMETOOLONG;
    if (*name ? stat(name, &found) : fstat((int)file, &found))
        return (u32)-errno;
    u64 told[4] = {(u64)found.st_mode, (u64)found.st_dev, (u64)found.st_ino, (u64)found.st_size};
    for (int i = 0; i < 4; i++) {
        u8 bytes[8];
        for (int k = 0; k < 8; k++)
            bytes[k] = (u8)(told[i] >> 8 * k);
        put(it, to + 8 * (u64)i, bytes, 8);
    }
    return 0;
}

u32 Z_hostZ_process(host *it) {
    (void)it;
    return (u32)getpid();
}

u64 Z_hostZ_word(host *it, u64 at, u64 to, u64 size) {
    return put_word(it, at < (u64)it->count ? it->words[at] : NULL, to, size);
}

u64 Z_hostZ_environment(host *it, u64 at, u64 length, u64 to, u64 size) {
    char *name = name_at(it, at, length);
    return put_word(it, name ? getenv(name) : NULL, to, size);
}

int main(int count, char **words) {
    static Z_program_instance_t program;
    static host it;
    it.program = &program;
    it.count = count;
    it.words = words;
    signal(SIGPIPE, SIG_IGN);
    wasm_rt_init();
    Z_program_init_module();
    Z_program_instantiate(&program, &it);
    return (int)Z_programZ_start(&program);
}
