// The functions of the C library that the program calls, for Linux on x86-64, on system calls alone. boot/bind puts them into boot/bcpl,
// which needs no C library of the system then. Each does what its page of the manual says, for one thread and no handlers of signals.
// Nothing is proved of this file: like any C library it is trusted. tests/without-a-c-library tests it.

typedef unsigned long size;
typedef unsigned char byte;
typedef unsigned short two __attribute__((aligned(1), may_alias));
typedef unsigned four __attribute__((aligned(1), may_alias));
typedef unsigned long eight __attribute__((aligned(1), may_alias));
typedef long long sixteen __attribute__((vector_size(16), aligned(1), may_alias));

enum { READ = 0, WRITE = 1, OPEN = 2, CLOSE = 3, MMAP = 9, MUNMAP = 11, SIGACTION = 13, IOCTL = 16, MREMAP = 25, FCNTL = 72, EXIT_GROUP = 231, STATX = 332 };
enum { OUT_OF_MEMORY = 12, INVALID = 22 };

// ---- system calls

static int error;

int *__errno_location(void) { return &error; }

static long call(long number, long a, long b, long c, long d, long e, long f) {
    long result;
    register long r10 __asm__("r10") = d;
    register long r8 __asm__("r8") = e;
    register long r9 __asm__("r9") = f;
    __asm__ volatile("syscall" : "=a"(result) : "a"(number), "D"(a), "S"(b), "d"(c), "r"(r10), "r"(r8), "r"(r9) : "rcx", "r11", "memory");
    return result;
}

// The result of a call of three words, -1 with errno where it failed.
static long checked(long number, long a, long b, long c) {
    long result = call(number, a, b, c, 0, 0, 0);
    if (result < 0 && -4096 < result) {
        error = (int)-result;
        return -1;
    }
    return result;
}

long read(int file, void *to, size count) { return checked(READ, file, (long)to, (long)count); }

long write(int file, const void *from, size count) { return checked(WRITE, file, (long)from, (long)count); }

long __write(int file, const void *from, size count) { return write(file, from, count); }

int open(const char *path, int flags, unsigned mode) { return (int)checked(OPEN, (long)path, flags, mode); }

int statx(int folder, const char *path, int flags, unsigned wanted, void *found) {
    long result = call(STATX, folder, (long)path, flags, wanted, (long)found, 0);
    if (result >= 0) return 0;
    error = (int)-result;
    return -1;
}

int close(int file) { return (int)checked(CLOSE, file, 0, 0); }

int fcntl(int file, int command, long value) { return (int)checked(FCNTL, file, command, value); }

int isatty(int file) {
    byte settings[64];
    return checked(IOCTL, file, 0x5401, (long)settings) == 0;
}

// A signal is ignored (1), or does what it does by itself (0). There are no handlers.
void *__sysv_signal(int number, void *handler) {
    struct {
        void *handler;
        size flags;
        void *restorer;
        size mask;
    } new = {handler, 0, 0, 0}, old = {0, 0, 0, 0};
    if ((size)handler > 1) {
        error = INVALID;
        return (void *)-1;
    }
    if (call(SIGACTION, number, (long)&new, (long)&old, 8, 0, 0) != 0) {
        error = INVALID;
        return (void *)-1;
    }
    return old.handler;
}

// ---- what the processor has

struct leaf {
    unsigned has[4];
    unsigned usable[4];
};

// Leaf 0 is CPUID 1, and leaf 2 is CPUID 80000001. Only bits that need nothing of the system are told: SSE3 to SSE4.2, CMPXCHG16B, POPCNT;
// LAHF.
const struct leaf *__x86_get_cpuid_feature_leaf(unsigned number) {
    static struct leaf leaves[3];
    struct leaf *leaf = &leaves[number == 0 ? 0 : number == 2 ? 2 : 1];
    if (number == 0 || number == 2) {
        unsigned a = number == 0 ? 1 : 0x80000001, b, c = 0, d;
        __asm__ volatile("cpuid" : "+a"(a), "=b"(b), "+c"(c), "=d"(d));
        leaf->has[2] = leaf->usable[2] = c & (number == 0 ? 0x982201 : 1);
    }
    return leaf;
}

// ---- bytes

// From so many bytes on the processor's own copying and filling is used.
#define LONG ((size)1 << 16)

static void forwards(byte *to, const byte *from, size count) {
    __asm__ volatile("rep movsb" : "+D"(to), "+S"(from), "+c"(count) : : "memory");
}

// (up to 64 bytes all are read before any is written; above, the bytes that a loop could write over are read before it)
void *memmove(void *target, const void *source, size count) {
    byte *to = target;
    const byte *from = source;
    if (count <= 16) {
        if (count >= 8) {
            size first = *(const eight *)from, last = *(const eight *)(from + count - 8);
            *(eight *)to = first;
            *(eight *)(to + count - 8) = last;
        } else if (count >= 4) {
            unsigned first = *(const four *)from, last = *(const four *)(from + count - 4);
            *(four *)to = first;
            *(four *)(to + count - 4) = last;
        } else if (count >= 2) {
            unsigned short first = *(const two *)from, last = *(const two *)(from + count - 2);
            *(two *)to = first;
            *(two *)(to + count - 2) = last;
        } else if (count) {
            *to = *from;
        }
        return target;
    }
    if (count <= 64) {
        sixteen a = *(const sixteen *)from, z = *(const sixteen *)(from + count - 16);
        if (count > 32) {
            sixteen b = *(const sixteen *)(from + 16), y = *(const sixteen *)(from + count - 32);
            *(sixteen *)(to + 16) = b;
            *(sixteen *)(to + count - 32) = y;
        }
        *(sixteen *)to = a;
        *(sixteen *)(to + count - 16) = z;
        return target;
    }
    if ((size)(to - from) >= count) {
        // the target does not begin within the source
        if (count >= LONG && (size)(from - to) >= count) {
            forwards(to, from, count);
            return target;
        }
        sixteen w = *(const sixteen *)(from + count - 64), x = *(const sixteen *)(from + count - 48);
        sixteen y = *(const sixteen *)(from + count - 32), z = *(const sixteen *)(from + count - 16);
        byte *end = to + count - 64;
        for (; to < end; to += 64, from += 64) {
            sixteen a = *(const sixteen *)from, b = *(const sixteen *)(from + 16);
            sixteen c = *(const sixteen *)(from + 32), d = *(const sixteen *)(from + 48);
            *(sixteen *)to = a;
            *(sixteen *)(to + 16) = b;
            *(sixteen *)(to + 32) = c;
            *(sixteen *)(to + 48) = d;
        }
        *(sixteen *)end = w;
        *(sixteen *)(end + 16) = x;
        *(sixteen *)(end + 32) = y;
        *(sixteen *)(end + 48) = z;
        return target;
    }
    sixteen a = *(const sixteen *)from, b = *(const sixteen *)(from + 16);
    sixteen c = *(const sixteen *)(from + 32), d = *(const sixteen *)(from + 48);
    size left = count;
    for (; left > 64; left -= 64) {
        sixteen w = *(const sixteen *)(from + left - 64), x = *(const sixteen *)(from + left - 48);
        sixteen y = *(const sixteen *)(from + left - 32), z = *(const sixteen *)(from + left - 16);
        *(sixteen *)(to + left - 64) = w;
        *(sixteen *)(to + left - 48) = x;
        *(sixteen *)(to + left - 32) = y;
        *(sixteen *)(to + left - 16) = z;
    }
    *(sixteen *)to = a;
    *(sixteen *)(to + 16) = b;
    *(sixteen *)(to + 32) = c;
    *(sixteen *)(to + 48) = d;
    return target;
}

void *memcpy(void *to, const void *from, size count) { return memmove(to, from, count); }

void *memset(void *target, int value, size count) {
    byte *to = target;
    size word = 0x0101010101010101 * (byte)value;
    if (count < 16) {
        if (count >= 8) {
            *(eight *)to = word;
            *(eight *)(to + count - 8) = word;
        } else if (count >= 4) {
            *(four *)to = (unsigned)word;
            *(four *)(to + count - 4) = (unsigned)word;
        } else if (count >= 2) {
            *(two *)to = (unsigned short)word;
            *(two *)(to + count - 2) = (unsigned short)word;
        } else if (count) {
            *to = (byte)word;
        }
        return target;
    }
    if (count >= LONG) {
        byte *at = to;
        __asm__ volatile("rep stosb" : "+D"(at), "+c"(count) : "a"(value) : "memory");
        return target;
    }
    sixteen words = {(long long)word, (long long)word};
    byte *end = to + count - 16;
    for (; (size)(end - to) > 64; to += 64) {
        *(sixteen *)to = words;
        *(sixteen *)(to + 16) = words;
        *(sixteen *)(to + 32) = words;
        *(sixteen *)(to + 48) = words;
    }
    for (; to < end; to += 16) *(sixteen *)to = words;
    *(sixteen *)end = words;
    return target;
}

// ---- memory

// Before each block lie 16 bytes: its size, without them, and the list to which it goes when it is given back. A block of up to LARGEST bytes has
// the size of a class, and is cut from a piece of PIECE bytes. A greater one is a mapping of its own, has no list, and goes back to the system.
enum { HEAD = 16, STEPS = 64, PAGE = 4096 };
#define LARGEST ((size)1 << 17)
#define PIECE ((size)1 << 20)

struct block {
    size bytes;
    // of a block that was given back: the next one in its list
    union {
        struct block *next;
        struct block **list;
    };
};

// classes of 16, 32, .. 1024 bytes, and then four for each power of two
static struct block *given_back[STEPS + 4 * 7 + 1];
static byte *piece;
static size piece_left;

// The class of a size of at least 1.
static unsigned class_of(size bytes) {
    if (bytes <= 16 * STEPS) return (unsigned)((bytes - 1) / 16);
    unsigned power = 63 - (unsigned)__builtin_clzl(bytes - 1);
    return STEPS + 4 * (power - 10) + (unsigned)(((bytes - 1) >> (power - 2)) - 4);
}

// The size of a class.
static size size_of(unsigned class) {
    if (class < STEPS) return 16 * (class + 1);
    return (size)(class % 4 + 5) << (class / 4 - STEPS / 4 + 8);
}

static void *map(size bytes) {
    long found = call(MMAP, 0, (long)bytes, 3, 0x22, -1, 0);
    return found < 0 && -4096 < found ? 0 : (void *)found;
}

// What is rare is apart, so that what is not saves no registers.
#define RARE static __attribute__((noinline, cold))

// A block of more than LARGEST bytes.
RARE void *malloc_large(size bytes) {
    size whole = (bytes + HEAD + PAGE - 1) & ~(size)(PAGE - 1);
    struct block *block = bytes > (size)1 << 62 ? 0 : map(whole);
    if (!block) {
        error = OUT_OF_MEMORY;
        return 0;
    }
    block->bytes = whole - HEAD;
    block->list = 0;
    return (byte *)block + HEAD;
}

// A block that is cut from a piece.
RARE void *malloc_new(unsigned class) {
    size whole = size_of(class);
    if (piece_left < whole + HEAD) {
        byte *new = map(PIECE);
        if (!new) {
            error = OUT_OF_MEMORY;
            return 0;
        }
        piece = new;
        piece_left = PIECE;
    }
    struct block *block = (struct block *)piece;
    piece += whole + HEAD;
    piece_left -= whole + HEAD;
    block->bytes = whole;
    block->list = &given_back[class];
    return (byte *)block + HEAD;
}

void *malloc(size bytes) {
    if (bytes > LARGEST) return malloc_large(bytes);
    struct block **list = &given_back[class_of(bytes ? bytes : 1)];
    struct block *block = *list;
    if (!block) return malloc_new((unsigned)(list - given_back));
    *list = block->next;
    block->list = list;
    return (byte *)block + HEAD;
}

RARE void free_large(struct block *block) { call(MUNMAP, (long)block, (long)(block->bytes + HEAD), 0, 0, 0, 0); }

void free(void *given) {
    if (!given) return;
    struct block *block = (struct block *)((byte *)given - HEAD);
    struct block **list = block->list;
    if (!list) {
        free_large(block);
        return;
    }
    block->next = *list;
    *list = block;
}

void *realloc(void *given, size bytes) {
    if (!given) return malloc(bytes);
    struct block *block = (struct block *)((byte *)given - HEAD);
    size had = block->bytes;
    if (had > LARGEST && bytes > LARGEST) {
        size whole = (bytes + HEAD + PAGE - 1) & ~(size)(PAGE - 1);
        long found = bytes > (size)1 << 62 ? -OUT_OF_MEMORY : call(MREMAP, (long)block, (long)(had + HEAD), (long)whole, 1, 0, 0);
        if (found < 0 && -4096 < found) {
            error = OUT_OF_MEMORY;
            return 0;
        }
        block = (struct block *)found;
        block->bytes = whole - HEAD;
        return (byte *)block + HEAD;
    }
    // (a block that is more than half used stays)
    if (bytes <= had && had <= 2 * bytes) return given;
    void *new = malloc(bytes);
    if (new) {
        memmove(new, given, bytes < had ? bytes : had);
        free(given);
    }
    return new;
}

// ---- the start

char **environ;

char *getenv(const char *name) {
    for (char **at = environ; at && *at; at++) {
        size same = 0;
        while (name[same] && (*at)[same] == name[same]) same++;
        if (!name[same] && (*at)[same] == '=') return *at + same + 1;
    }
    return 0;
}

typedef void starter(int count, char **words, char **settings);

// the program's table of functions that run before `main`: boot/bind says where it lies
extern starter *program_starters[], *program_starters_end[];

void __cxa_finalize(void *of) { (void)of; }

// The program's own first instructions call this, with its `main`.
int __libc_start_main(int (*main)(int, char **, char **), int count, char **words) {
    char **settings = words + count + 1;
    environ = settings;
    for (starter **at = program_starters; at < program_starters_end; at++) (*at)(count, words, settings);
    int status = main(count, words, settings);
    for (;;) call(EXIT_GROUP, status, 0, 0, 0, 0, 0);
}
