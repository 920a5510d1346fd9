/* Names and numbers that the toolchain's tables by hash put in few places: their hash has a fixed seed. Prints one a line.
 * collide names LENGTH BITS COUNT: names of this length whose hashes end in the same bits, where each letter is hashed by itself
 * collide whole LENGTH BITS COUNT: the same of at most eight letters, where a name is hashed by one write
 * collide numbers FROM TO BITS BELOW COUNT: numbers the last bits of whose hashes are below this */
#include <stdint.h>
#include <stdio.h>
#include <stdlib.h>
#include <string.h>

typedef unsigned __int128 wide;
static const uint64_t seed = 0x243f6a8885a308d3, factor = 0x9e3779b97f4a7c15;
static const char letters[] = "ABCDEFGHIJKLMNOPQRSTUVWXYZ0123456789";
static char name[256];
static long length, left;
static int whole;
static uint32_t mask;

static uint64_t folded(uint64_t a, uint64_t b) {
    wide product = (wide)a * b;
    return (uint64_t)product ^ (uint64_t)(product >> 64);
}

static uint32_t place(uint64_t state) { return (uint32_t)(state ^ state >> 32) & mask; }

/* The hash of a name of four to eight letters that is written at once. */
static uint64_t written(void) {
    uint32_t first, last;
    memcpy(&first, name, 4);
    memcpy(&last, name + length - 4, 4);
    return folded(seed ^ (first | (uint64_t)last << 32), factor ^ 2 * (uint64_t)length);
}

static void names(long at, uint64_t state) {
    if (at == length) {
        if (place(whole ? written() : state) == 0) {
            puts(name);
            left--;
        }
        return;
    }
    for (int i = 0; i < (at ? 36 : 26) && left > 0; i++) {
        name[at] = letters[i];
        names(at + 1, folded(state ^ (uint64_t)letters[i] * 0x010101, factor ^ 2));
    }
}

int main(int count, char **words) {
    if (count == 5) {
        whole = strcmp(words[1], "whole") == 0;
        length = atol(words[2]);
        mask = (1u << atoi(words[3])) - 1;
        left = atol(words[4]);
        names(0, folded(seed ^ (uint64_t)length, factor ^ 16));
    } else if (count == 7) {
        mask = (1u << atoi(words[4])) - 1;
        left = atol(words[6]);
        for (int64_t k = atoll(words[2]); k <= atoll(words[3]) && left > 0; k++) {
            uint64_t n = (uint32_t)k;
            if (place(folded(seed ^ (n | n << 32), factor ^ 8)) < (uint32_t)atoi(words[5])) {
                printf("%lld\n", (long long)k);
                left--;
            }
        }
    }
    return 0;
}
