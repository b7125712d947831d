/* What the proved code of a program calls of a system, for WebAssembly: the heap, and files, words and the environment by the
 * host that runs it. It stands in the place of the toolchain's two archives and of the C library. No proof covers it. */
typedef unsigned long usize; /* 64 bits: it is compiled for wasm64, and lower.py cuts the addresses */
typedef unsigned char u8;
#define NULL ((void *)0)

/* The host's functions. They answer -N where Linux has the error N. */
#define HOST(name) __attribute__((import_module("host"), import_name(#name))) host_##name
long HOST(read)(int file, u8 *to, usize size);
long HOST(write)(int file, const u8 *from, usize size);
int HOST(open)(const u8 *name, usize length, int flags);
int HOST(close)(int file);
int HOST(rename)(const u8 *from, usize from_length, const u8 *to, usize to_length);
int HOST(remove)(const u8 *name, usize length);
int HOST(process)(void);
/* of the file that is open where the name is empty; what is found is the mode, the device, the node and the size */
int HOST(stat)(int file, const u8 *name, usize length, usize found[4]);
/* the length of what was put, -1 where there is none, -2 where it is longer than the room */
long HOST(word)(usize at, u8 *to, usize room);
long HOST(environment)(const u8 *name, usize length, u8 *to, usize room);

/* The heap. Blocks have sizes of some classes, four to each doubling, and each class has a list of its free blocks. The 16 bytes
 * before a block say its class. */
struct block {
    usize class_of_size;
    struct block *next;
};
enum { HEAD = 16, PAGE = 65536, CLASSES = 256 };
static const usize LARGEST = (usize)1 << 40;
extern u8 __heap_base;
static usize top, end;
static struct block *freed[CLASSES];

static usize class_of(usize size) {
    if (size <= 64)
        return size ? (size - 1) / 16 : 0;
    usize log = 63 - (usize)__builtin_clzl(size - 1); /* 2^log < size <= 2^(log + 1) */
    return 4 + (log - 6) * 4 + ((size - 1) >> (log - 2) & 3);
}

static usize size_of(usize class) { /* a multiple of 16 */
    return class < 4 ? 16 * (class + 1) : (5 + class % 4) << (class / 4 + 3);
}

static int grow_to(usize wanted) {
    if (wanted <= end)
        return 1;
    usize pages = (wanted - end + PAGE - 1) / PAGE;
    usize eighth = end / PAGE / 8;
    usize more = pages < eighth ? eighth : pages;
    if (__builtin_wasm_memory_grow(0, more) == (usize)-1) {
        more = pages;
        if (__builtin_wasm_memory_grow(0, more) == (usize)-1)
            return 0;
    }
    end += more * PAGE;
    return 1;
}

static u8 *taken(usize size) {
    if (size > LARGEST)
        return NULL;
    usize class = class_of(size);
    struct block *it = freed[class];
    if (it) {
        freed[class] = it->next;
        return (u8 *)it + HEAD;
    }
    if (!top) {
        top = ((usize)&__heap_base + HEAD - 1) & ~(usize)(HEAD - 1);
        end = (usize)__builtin_wasm_memory_size(0) * PAGE;
    }
    if (!grow_to(top + HEAD + size_of(class)))
        return NULL;
    it = (struct block *)top;
    it->class_of_size = class;
    top += HEAD + size_of(class);
    return (u8 *)it + HEAD;
}

/* whether there is memory, and where; the place is never null */
struct tried {
    usize ok;
    u8 *place;
};
static u8 nothing;

struct tried rattle_alloc(usize size, usize align) {
    u8 *place = taken(size ? size : align);
    struct tried it = {place != NULL, place ? place : &nothing};
    return it;
}

void rattle_dealloc(u8 *place) {
    if (!place)
        return;
    struct block *it = (struct block *)(place - HEAD);
    it->next = freed[it->class_of_size];
    freed[it->class_of_size] = it;
}

struct tried rattle_realloc(u8 *place, usize kept, usize size, usize align) {
    struct block *block = (struct block *)(place - HEAD);
    struct tried it = {1, place};
    usize wanted = size ? size : align, had = size_of(block->class_of_size);
    if (wanted <= had)
        return it;
    if ((usize)place + had == top && wanted <= LARGEST) { /* the last block grows where it stands */
        usize class = class_of(wanted);
        if (grow_to((usize)place + size_of(class))) {
            block->class_of_size = class;
            top = (usize)place + size_of(class);
            return it;
        }
    }
    it = rattle_alloc(size, align);
    if (it.ok) {
        __builtin_memcpy(it.place, place, kept < wanted ? kept : wanted);
        rattle_dealloc(place);
    }
    return it;
}

/* Files, words, the environment */
static int fault;

static long told(long answer) {
    if (answer >= 0)
        return answer;
    fault = (int)-answer;
    return -1;
}

static usize length_of(const u8 *text) {
    usize length = 0;
    while (text[length])
        length++;
    return length;
}

int rattle_errno(void) {
    return fault;
}

void rattle_set_errno(int number) {
    fault = number;
}

/* A second number of an open file is this much more than its own. A host knows the own one alone. */
enum { SECOND = 1 << 30, F_DUPFD_CLOEXEC = 1030 };

static int own(int file) {
    return file < SECOND ? file : file - SECOND;
}

int fcntl(int file, int command, ...) {
    usize found[4];
    if (command != F_DUPFD_CLOEXEC)
        return (int)told(-22);
    if (told(host_stat(own(file), (const u8 *)"", 0, found)) < 0)
        return -1;
    return SECOND + own(file);
}

/* Nobody looks on while it runs, and there is no clock: so a program tells nothing of how far it has come. */
int isatty(int file) {
    (void)file;
    told(-25);
    return 0;
}

int clock_gettime(int clock, void *to) {
    (void)clock;
    (void)to;
    return (int)told(-38);
}

long read(int file, u8 *to, usize size) {
    return told(host_read(own(file), to, size));
}

long write(int file, const u8 *from, usize size) {
    return told(host_write(own(file), from, size));
}

long __write(int file, const u8 *from, usize size) {
    return write(file, from, size);
}

int open(const u8 *name, int flags, ...) {
    return (int)told(host_open(name, length_of(name), flags));
}

int close(int file) {
    return file < SECOND ? (int)told(host_close(file)) : 0;
}

int rename(const u8 *from, const u8 *to) {
    return (int)told(host_rename(from, length_of(from), to, length_of(to)));
}

int unlink(const u8 *name) {
    return (int)told(host_remove(name, length_of(name)));
}

int getpid(void) {
    return host_process();
}

/* A host gives each file the permissions that it gives a new one. */
int fchmod(int file, unsigned mode) {
    (void)file, (void)mode;
    return 0;
}

/* A host leads through links by itself, and tells of none. */
u8 *realpath(const u8 *name, u8 *to) {
    (void)name, (void)to;
    told(-38);
    return NULL;
}

long lseek(int file, long to, int whence) {
    (void)file, (void)to, (void)whence;
    return told(-29); /* as of a pipe */
}

long rattle_arg(usize at, u8 *to, usize room) {
    return host_word(at, to, room);
}

long rattle_env(const u8 *name, u8 *to, usize room) {
    return host_environment(name, length_of(name), to, room);
}

long rattle_env_at(usize at, u8 *to, usize room) {
    (void)at, (void)to, (void)room;
    return -1;
}

long __sysv_signal(int number, long what) {
    (void)number, (void)what;
    return 0;
}

/* Linux's struct of 256 bytes */
struct statx {
    unsigned mask, block_size;
    usize attributes;
    unsigned links, user, group;
    unsigned short mode, spare;
    usize node, size, blocks, attributes_mask;
    u8 times[64];
    unsigned special_major, special_minor, device_major, device_minor;
    u8 rest[112];
};
_Static_assert(sizeof(struct statx) == 256, "statx");

int statx(int file, const u8 *name, int flags, unsigned mask, struct statx *to) {
    usize found[4];
    (void)flags;
    if (told(host_stat(own(file), name, length_of(name), found)) < 0)
        return -1;
    __builtin_memset(to, 0, sizeof *to);
    to->mask = mask;
    to->mode = (unsigned short)found[0];
    to->device_major = (unsigned)(found[1] >> 32);
    to->device_minor = (unsigned)found[1];
    to->node = found[2];
    to->size = found[3];
    to->links = 1;
    return 0;
}

static const char *text_of(int number) {
    switch (number) {
    case 2:
        return "No such file or directory";
    case 5:
        return "Input/output error";
    case 9:
        return "Bad file descriptor";
    case 12:
        return "Cannot allocate memory";
    case 13:
        return "Permission denied";
    case 20:
        return "Not a directory";
    case 21:
        return "Is a directory";
    case 24:
        return "Too many open files";
    case 27:
        return "File too large";
    case 28:
        return "No space left on device";
    case 32:
        return "Broken pipe";
    case 36:
        return "File name too long";
    case 40:
        return "Too many levels of symbolic links";
    default:
        return "Error of the host";
    }
}

int __xpg_strerror_r(int number, u8 *to, usize room) {
    const char *text = text_of(number);
    usize at = 0;
    for (; text[at] && at + 1 < room; at++)
        to[at] = (u8)text[at];
    if (room)
        to[at] = 0;
    return 0;
}

/* What the compiler calls. Bulk instructions are left out, since not every engine has them. */
void *memcpy(void *to, const void *from, usize size) {
    u8 *a = to;
    const u8 *b = from;
    for (; size >= 8; size -= 8, a += 8, b += 8)
        __builtin_memcpy_inline(a, b, 8);
    while (size--)
        *a++ = *b++;
    return to;
}

void *memmove(void *to, const void *from, usize size) {
    u8 *a = to;
    const u8 *b = from;
    if (a < b)
        return memcpy(to, from, size);
    while (size--)
        a[size] = b[size];
    return to;
}

void *memset(void *to, int value, usize size) {
    u8 *a = to;
    while (size--)
        *a++ = (u8)value;
    return to;
}

/* the product of two numbers of 128 bits */
typedef unsigned __int128 u128;

u128 __multi3(u128 a, u128 b) {
    const usize low = 0xffffffff;
    usize a0 = (usize)a, b0 = (usize)b;
    usize p = (a0 & low) * (b0 & low), q = (a0 >> 32) * (b0 & low), r = (a0 & low) * (b0 >> 32), s = (a0 >> 32) * (b0 >> 32);
    usize middle = (p >> 32) + (q & low) + (r & low);
    usize high = s + (q >> 32) + (r >> 32) + (middle >> 32) + a0 * (usize)(b >> 64) + (usize)(a >> 64) * b0;
    return (u128)high << 64 | (p & low) | middle << 32;
}

/* A program for x86-64-v2 asks at its start whether the processor has that; code for another machine needs nothing of it. */
static const unsigned all[8] = {~0u, ~0u, ~0u, ~0u, ~0u, ~0u, ~0u, ~0u};

const void *__x86_get_cpuid_feature_leaf(unsigned leaf) {
    (void)leaf;
    return all;
}

int rattle_main(void);

__attribute__((export_name("start"))) int start(void) {
    return rattle_main();
}
