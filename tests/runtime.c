// Tests the functions of boot/runtime.c against plain loops. tests/without-a-c-library compiles that file with the names kit_.. and links both.
// The last line is 'N passed, M failed'.
#include <stdint.h>
#include <stdio.h>
#include <stdlib.h>
#include <string.h>
#include <sys/resource.h>

void *kit_memmove(void *, const void *, size_t);
void *kit_memcpy(void *, const void *, size_t);
void *kit_memset(void *, int, size_t);
void *kit_malloc(size_t);
void *kit_realloc(void *, size_t);
void kit_free(void *);
int *kit_errno(void);

typedef void starter(int, char **, char **);
starter *program_starters[1], *program_starters_end[1];

static long passed, failed;

static void is(const char *what, int good) {
    passed += good != 0;
    failed += good == 0;
    if (!good) printf("%s: FAILED\n", what);
}

// (of which the first `used` bytes are looked at)
static unsigned char begun[200000], wanted[200000], got[200000];
static size_t used = 12000;

// a copy of `count` bytes from one place of an array to another, by one byte at a time through a third array
static int moves(void *(*move)(void *, const void *, size_t), size_t from, size_t to, size_t count) {
    memcpy(wanted, begun, used);
    for (size_t at = 0; at < count; at++) wanted[to + at] = begun[from + at];
    memcpy(got, begun, used);
    return move(got + to, got + from, count) == got + to && memcmp(got, wanted, used) == 0;
}

static int sets(size_t to, int value, size_t count) {
    memcpy(wanted, begun, used);
    for (size_t at = 0; at < count; at++) wanted[to + at] = (unsigned char)value;
    memcpy(got, begun, used);
    return kit_memset(got + to, value, count) == got + to && memcmp(got, wanted, used) == 0;
}

static uint64_t seed = 1;

static uint64_t random_below(uint64_t end) {
    seed = seed * 6364136223846793005u + 1442695040888963407u;
    return (seed >> 33) % end;
}

static size_t random_size(void) {
    static const size_t ends[] = {2, 40, 300, 1100, 5000, 140000, 700000};
    return random_below(ends[random_below(random_below(20) ? 5 : 7)]);
}

enum { BLOCKS = 400, TURNS = 100000 };
static unsigned char *blocks[BLOCKS];
static size_t sizes[BLOCKS];

static unsigned char mark(int block, size_t at) { return (unsigned char)(block * 7 + at * 13 + (at >> 8)); }

static void fill(int block, size_t from) {
    for (size_t at = from; at < sizes[block]; at++) blocks[block][at] = mark(block, at);
}

static int holds(int block, size_t count) {
    for (size_t at = 0; at < count; at++) {
        if (blocks[block][at] != mark(block, at)) return 0;
    }
    return 1;
}

int main(void) {
    for (size_t at = 0; at < sizeof begun; at++) begun[at] = (unsigned char)(at * 31 + (at >> 8) * 17);
    static const size_t long_ones[] = {1000, 1023, 1024, 1025, 1500, 2047, 4096, 4097};
    int good = 1, copied = 1, set = 1;
    for (size_t count = 0; count <= 300; count++) {
        for (size_t shift = 0; shift <= 140; shift++) {
            good &= moves(kit_memmove, 5000 + shift % 3, 5000 + shift, count) && moves(kit_memmove, 5000 + shift, 5000 + shift % 3, count);
        }
        copied &= moves(kit_memcpy, 1 + count % 16, 6000 + count % 7, count);
        set &= sets(3 + count % 16, (int)count * 3 - 300, count);
    }
    for (size_t which = 0; which < sizeof long_ones / sizeof *long_ones; which++) {
        size_t count = long_ones[which];
        for (size_t shift = 0; shift < 2100; shift += shift < 70 ? 1 : 97) {
            good &= moves(kit_memmove, 2000, 2000 + shift, count) && moves(kit_memmove, 2000 + shift, 2000, count);
        }
        copied &= moves(kit_memcpy, 3, 7000, count) && moves(kit_memcpy, 7000, 5, count);
        set &= sets(9, 300, count) && sets(16, -1, count);
    }
    static const size_t longest[] = {65535, 65536, 65537, 90001};
    used = sizeof begun;
    for (size_t which = 0; which < sizeof longest / sizeof *longest; which++) {
        size_t count = longest[which];
        for (size_t shift = 0; shift < 99000; shift += shift < 20 ? 1 : 7777) {
            good &= moves(kit_memmove, 3, 3 + shift, count) && moves(kit_memmove, 3 + shift, 3, count);
        }
        copied &= moves(kit_memcpy, 3, 100001, count) && moves(kit_memcpy, 100001, 5, count);
        set &= sets(9, 300, count) && sets(16, -1, count);
    }
    is("memmove", good);
    is("memcpy", copied);
    is("memset", set);

    // blocks at random: each keeps its bytes, lies at 16, and is apart from the others
    int kept = 1, lies = 1;
    for (int turn = 0; turn < TURNS; turn++) {
        int block = (int)random_below(BLOCKS);
        size_t had = sizes[block], size = random_size();
        if (!blocks[block]) {
            blocks[block] = kit_malloc(size);
            had = 0;
        } else if (random_below(3)) {
            kept &= holds(block, had);
            blocks[block] = kit_realloc(blocks[block], size);
        } else {
            kept &= holds(block, had);
            kit_free(blocks[block]);
            blocks[block] = 0;
            continue;
        }
        lies &= blocks[block] != 0 && (uintptr_t)blocks[block] % 16 == 0;
        sizes[block] = size;
        kept &= holds(block, had < size ? had : size);
        fill(block, had < size ? had : size);
    }
    for (int block = 0; block < BLOCKS; block++) {
        kept &= !blocks[block] || holds(block, sizes[block]);
        kit_free(blocks[block]);
    }
    is("blocks keep their bytes", kept);
    is("blocks lie at multiples of 16", lies);

    // no memory: 0 and ENOMEM, and what was there stays
    struct rlimit limit = {100 << 20, 100 << 20};
    setrlimit(RLIMIT_AS, &limit);
    sizes[0] = 200000;
    blocks[0] = kit_malloc(sizes[0]);
    fill(0, 0);
    *kit_errno() = 0;
    is("a size that no memory has", !kit_malloc((size_t)-1) && *kit_errno() == 12);
    is("a size that the limit refuses", !kit_malloc(200 << 20));
    is("a block that cannot grow", !kit_realloc(blocks[0], 200 << 20) && !kit_realloc(blocks[0], (size_t)-20) && holds(0, sizes[0]));
    long count = 0;
    while (kit_malloc(4000)) count++;
    is("small blocks up to the limit", 15000 < count && count < 27000);
    blocks[0] = kit_realloc(blocks[0], 10);
    sizes[0] = 10;
    is("a block that shrinks where nothing is left", !blocks[0] || holds(0, 10));
    printf("%ld passed, %ld failed\n", passed, failed);
    return failed != 0;
}
