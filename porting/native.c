/* native: the library and the beginning of a program that native.py generated. Word n of the store is base[n]. */
#include <inttypes.h>
#include <stdio.h>
#include <stdlib.h>
#include <sys/mman.h>

typedef uint32_t Word;
enum { STACK = 262144 };
extern Word base[], globals[], frame;
void run(Word *stack, Word *last);
static Word stack[STACK];

static void end(int status, const char *line) {
    if (fflush(stdout) != 0) status = 110, line = "write fault";
    if (line) fprintf(stderr, "%s\n", line);
    exit(status);
}
void finish(int status) { end(status, NULL); }
void division(void) { end(104, "division by zero"); }
void limit(void) { end(105, "store limit"); }

static unsigned char *byte_at(Word s, Word i) { return (unsigned char *)(base + s) + (int32_t)i; }
static void write_number(Word n, int32_t width) { printf("%*" PRId32, width < 0 ? 0 : width > 255 ? 255 : (int)width, (int32_t)n); }
static void write_string(Word s) { fwrite(byte_at(s, 1), 1, *byte_at(s, 0), stdout); }

static void write_format(Word s, const Word *argument) {
    unsigned n = *byte_at(s, 0);
    for (unsigned i = 1; i <= n; i++) {
        unsigned char c = *byte_at(s, i), next = c == '%' && i < n ? *byte_at(s, i + 1) : 0, letter = next & 0xDF;
        unsigned digit = letter == 'I' && i + 1 < n ? *byte_at(s, i + 2) - '0' : 10u;
        if (next == '%') putchar('%'), i++;
        else if (letter == 'S') write_string(*argument++), i++;
        else if (letter == 'N') write_number(*argument++, 0), i++;
        else if (letter == 'C') putchar((int)(*argument++ & 255)), i++;
        else if (digit < 10) write_number(*argument++, (int32_t)digit), i += 2;
        else putchar(c);
    }
}

/* A routine, by its global, with its frame. Returns its result, where it has one. */
Word library(int routine, const Word *p) {
    static int ended;
    switch (routine) {
    case 2: end(p[2] < 100 ? (int)p[2] : 100, NULL); break;
    case 3:
        fflush(stdout);
        int c = ended ? EOF : getchar();
        return (ended = c == EOF) ? 0 - (Word)1 : (Word)c;
    case 4: putchar((int)(p[2] & 255)); break;
    case 5: putchar('\n'); break;
    case 6: write_string(p[2]); break;
    case 7: write_number(p[2], 0); break;
    case 8: write_number(p[2], (int32_t)p[3]); break;
    case 9: return *byte_at(p[2], p[3]);
    case 10: *byte_at(p[2], p[3]) = (unsigned char)p[4]; break;
    case 11: write_format(p[2], p + 3); break;
    }
    return 0;
}

int main(void) {
    if (!globals[1]) end(108, "no START");
    run(stack, stack + STACK - frame - 16);
}
