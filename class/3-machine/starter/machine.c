/* machine interpret [-t STEPS] FILE: a machine for INTCODE that trusts its text. The loader is here; the steps are to be written. */
#include <stdint.h>
#include <stdio.h>
#include <stdlib.h>
#include <string.h>

enum { WORDS = 262144, GLOBALS = 16, LIBRARY = 1016, FIRST = 1034, LABELS = 2000001, LONG = 1 << 25 };

static uint32_t store[WORDS], label[LABELS], next = FIRST;
static uint32_t a, b, c = 1, p;

/* Ends the run with a status, and with a line where there is one. */
static _Noreturn void end(int status, const char *line)
{
    fflush(stdout);
    if (line)
        fprintf(stderr, "%s\n", line);
    exit(status);
}

static uint32_t *at(uint32_t address)
{
    if (address >= WORDS)
        end(105, "store limit");
    return &store[address];
}

/* The number of an item, after its letters. */
static long number(const char *item)
{
    return strtol(item + strspn(item, "LSAJTFKXIPGDCQ"), NULL, 10);
}

static int is_long(const char *item)
{
    return !strchr(item + 1, 'L') && (number(item) < 0 || number(item) >= LONG);
}

static uint32_t instruction(const char *item)
{
    uint32_t word = (uint32_t)(strchr("LSAJTFKX", item[0]) - "LSAJTFKX") << 29;
    for (item++; *item && strchr("IPG", *item); item++)
        word |= *item == 'I' ? 1u << 28 : *item == 'P' ? 1u << 27 : 1u << 26;
    if (*item == 'L')
        return word | label[number(item)];
    return word | (number(item) < 0 || number(item) >= LONG ? LONG : (uint32_t)number(item));
}

/* Goes through the items of a segment: the first time it sets the labels, the second time it places the words. */
static void place(char **items, int count, int second)
{
    uint32_t start = next;
    int filled = 0;
    for (int n = 0; n < count; n++) {
        const char *item = items[n];
        if (item[0] == 'C') {
            if (filled % 4 == 0)
                *at(next++) = 0;
            if (second)
                store[next - 1] |= (uint32_t)number(item) << 8 * (filled % 4);
            filled++;
            continue;
        }
        filled = 0;
        if (strchr("0123456789", item[0]))
            label[number(item)] = next;
        else if (strchr("LSAJTFKX", item[0])) {
            if (second)
                *at(next) = instruction(item);
            next++;
            if (is_long(item))
                *at(next++) = (uint32_t)number(item);
        } else if (item[0] == 'D') {
            if (second)
                *at(next) = item[1] == 'L' ? label[number(item)] : (uint32_t)number(item);
            next++;
        } else if (item[0] == 'G' && second)
            store[GLOBALS + atoi(item + 1)] = label[atoi(strchr(item, 'L') + 1)];
    }
    if (!second)
        next = start;
}

static void load(const char *path)
{
    static char *items[1 << 20];
    static char word[64];
    int count = 0;
    FILE *text = fopen(path, "r");
    if (!text)
        end(109, "read fault");
    store[1] = instruction("LIG1"), store[2] = instruction("K0"), store[3] = instruction("X22");
    store[4] = instruction("X33"), store[5] = instruction("X4");
    for (int n = 2; n <= 10; n++) {
        store[LIBRARY + 2 * (n - 2)] = 7u << 29 | (uint32_t)(n + 22);
        store[LIBRARY + 2 * (n - 2) + 1] = instruction("X4");
        store[GLOBALS + n] = LIBRARY + 2 * (n - 2);
    }
    store[GLOBALS + 11] = 4;
    while (fscanf(text, "%63s", word) == 1) {
        items[count++] = strdup(word);
        if (word[0] == 'Z') {
            place(items, count, 0);
            place(items, count, 1);
            count = 0;
        }
    }
    p = next;
}

/* To be written: the word at C, its operand, its function. */
static void step(void)
{
    (void)a, (void)b;
    c++;
    end(107, "bad operation");
}

int main(int argc, char **argv)
{
    long long steps = 1000000000;
    if (argc > 3 && strcmp(argv[2], "-t") == 0)
        steps = atoll(argv[3]);
    load(argv[argc - 1]);
    if (store[GLOBALS + 1] == 0)
        end(108, "no START");
    while (steps-- > 0)
        step();
    end(106, "step limit");
}
