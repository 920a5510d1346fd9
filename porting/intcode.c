/* intcode: the assembler and the machine of docs/INTCODE.md in portable C99. It is written from the page alone and is not proved.
 *     intcode interpret [-s WORDS] [-t STEPS] [--sizes] [-v] [--ocode FILE] FILE
 * does what `bcpl interpret` does. -v lists each step on the error stream; --ocode gives the OCODE text of the same program, for the names
 * of procedures in that list. The output is flushed before each byte that is read, also where a byte waits. */
#include <inttypes.h>
#include <stdio.h>
#include <stdlib.h>
#include <string.h>

typedef uint32_t Word;
enum { GLOBALS = 16, LIBRARY = 1016, SEGMENTS = 1034, LABELS = 2000000, ITEMS = 64000000, FRAME = 65535 };
enum { ADDRESS = 0x1FFFFFF, LONG = 1 << 25, FROM_G = 1 << 26, FROM_P = 1 << 27, INDIRECT = 1 << 28, FUNCTION = 29 };
static const char FUNCTIONS[] = "LSAJTFKX";
typedef struct { char kind; int has_label; Word word, global, number; } Item; /* kind: its first letter, or ':' where it sets a label */
typedef struct { Word c, p, a, b; } Registers;

static Word *store, size = 262144, stack = SEGMENTS, frame;
static struct { unsigned long segment; Word where; } labels[LABELS + 1]; /* the segment that set the label last, counted from 1 */
static struct use { Word where, word, label; } *uses; /* the words of a segment to which the number of a label is added */
static char **names; /* the name of the procedure that begins at each word, or NULL */
static int column; /* how many bytes of a line of the list are written */

/* Passes the output on and ends the run; the line may be NULL. */
static void end(int status, const char *line) {
    if ((fflush(stdout) != 0 || ferror(stdout)) && status != 112) status = 110, line = "write fault";
    fprintf(stderr, "%s%s%s", column ? "\n" : "", line ? line : "", line ? "\n" : "");
    exit(status);
}
static void *memory(void *found) { if (!found) end(111, "no memory"); return found; }
static void put(Word where, Word word) { if (where < size) store[where] = word; }

/* Reads a number that is spelled one way. Returns what follows it, or NULL where it is misspelt or outside the range. */
static const char *number(const char *s, int64_t least, int64_t most, int64_t *n) {
    const char *digits = s + (*s == '-');
    size_t count = strspn(digits, "0123456789");
    if (count == 0 || count > 13 || (*digits == '0' && (count > 1 || digits > s))) return NULL;
    *n = strtoll(s, NULL, 10);
    return *n < least || *n > most ? NULL : digits + count;
}

/* Reads the item of a word. Returns its fault, or NULL. */
static const char *read_item(const char *s, Item *i) {
    int64_t n = 0, least = INT32_MIN, most = INT32_MAX;
    const char *function = strchr(FUNCTIONS, *s);
    *i = (Item){.kind = *s};
    if (*s >= '0' && *s <= '9') i->kind = ':', least = 1, most = LABELS;
    else if (function) {
        i->word = (Word)(function - FUNCTIONS) << FUNCTION;
        if (*++s == 'I') i->word |= INDIRECT, s++;
        if (*s == 'P') i->word |= FROM_P, s++;
        else if (*s == 'G') i->word |= FROM_G, s++;
        else i->has_label = *s == 'L';
    } else if (*s == 'C') s++, least = 0;
    else if (*s == 'D') i->has_label = *++s == 'L';
    else if (*s == 'G') {
        if (!(s = number(s + 1, 0, 999, &n)) || *s != 'L') return "bad number";
        i->global = (Word)n, i->has_label = 1;
    } else if (*s == 'Q') s++, least = 16, most = FRAME;
    else return *s != 'Z' ? "bad letter" : s[1] ? "bad number" : NULL;
    if (i->has_label) s++, least = 1, most = LABELS;
    s = number(s, least, most, &n);
    i->number = (Word)n;
    return !s || *s ? "bad number" : i->kind == 'C' && n > 255 ? "byte over 255" : NULL;
}

static int is_blank(int c) { return c == ' ' || (c >= 9 && c <= 13 && c != 11); }

/* Reads the next word, cut at 19 bytes (no item has more). Returns 0 at the end of the text. */
static int read_word(FILE *file, char *word) {
    int c = getc(file), n = 0;
    while (is_blank(c)) c = getc(file);
    for (; c != EOF && !is_blank(c); c = getc(file))
        if (n < 19) word[n++] = c ? (char)c : '?'; /* (a byte 0 ends a word in C, and no item has one) */
    word[n] = 0;
    if (ferror(file)) end(109, "read fault");
    return n > 0;
}

/* Reads the names in the next section of an OCODE text. A label of ENTRY has to have the same number in the segment. */
static void read_names(FILE *code, unsigned long segment) {
    char word[20];
    unsigned label, count, c;
    while (code && fscanf(code, "%19s", word) == 1 && strcmp(word, "GLOBAL") != 0) {
        if (strcmp(word, "ENTRY") != 0 || fscanf(code, " L%6u %3u", &label, &count) != 2) continue;
        char *name = memory(calloc(count + 1, 1));
        for (unsigned k = 0; k < count && fscanf(code, "%3u", &c) == 1; k++) name[k] = (char)(c > 32 && c < 127 ? c : '?');
        if (labels[label].segment == segment && labels[label].where < size) names[labels[label].where] = name;
    }
}

/* Reads a segment from its first word on, and lays it from the word `stack` on. A word with a label gets its number at the end. */
static void read_segment(FILE *file, unsigned long segment, char *word) {
    static size_t room;
    size_t count = 0, used = 0;
    Word next = stack, bytes = 0, in_bytes = 0, deepest = 0;
    Item i;
    for (int more = 1; ; more = read_word(file, word)) {
        const char *fault = more ? read_item(word, &i) : "truncated";
        for (size_t k = 0; !fault && i.kind == 'Z' && k < used; k++)
            if (labels[uses[k].label].segment != segment) fault = "label not set";
        if (!fault && i.kind == ':' && labels[i.number].segment == segment) fault = "label set twice";
        if (!fault && count == ITEMS) fault = "too long";
        if (!fault && i.kind == 'Q' && deepest) fault = "frame given twice";
        count++;
        if (fault) fprintf(stderr, "segment %lu, item %zu: %s\n", segment, count, fault), end(103, NULL);
        if (i.kind != 'C' && in_bytes) next++, bytes = in_bytes = 0; /* any other item ends a run of bytes */
        if (i.kind == 'Z') break;
        Word where = i.kind == 'G' ? GLOBALS + i.global : next;
        if (i.kind == ':') labels[i.number].segment = segment, labels[i.number].where = next;
        else if (i.kind == 'Q') deepest = i.number;
        else if (i.kind == 'C') {
            put(next, bytes |= i.number << 8 * in_bytes);
            if (++in_bytes == 4) next++, bytes = in_bytes = 0;
        } else if (i.kind != 'G') {
            if (i.kind != 'D' && !i.has_label && i.number > ADDRESS) put(next++, i.word | LONG), i.word = 0;
            put(next++, i.word + i.number);
        }
        if (i.has_label && used == room) uses = memory(realloc(uses, (room = 2 * room + 1024) * sizeof *uses));
        if (i.has_label) uses[used++] = (struct use){where, i.word, i.number};
    }
    for (size_t k = 0; k < used; k++) put(uses[k].where, uses[k].word + labels[uses[k].label].where);
    stack = next < size ? next : size; /* (a store of no more words is too small, whatever follows) */
    if (frame < (deepest ? deepest : FRAME)) frame = deepest ? deepest : FRAME;
}

/* The word at an address. (The loop of `run` has the store and its size in variables of its own, which is faster.) */
static Word *cell(Word *words, Word count, Word address) { if (address >= count) end(105, "store limit"); return words + address; }
static Word at(Word address) { return *cell(store, size, address); }
static Word *byte_place(Word s, Word i) { return cell(store, size, s + (i >> 2 | (i & 0x80000000 ? 0xC0000000 : 0))); }
static Word byte(Word s, Word i) { return *byte_place(s, i) >> 8 * (i & 3) & 255; }
static void set_byte(Word s, Word i, Word value) {
    Word *word = byte_place(s, i), shift = 8 * (i & 3);
    *word = (*word & ~((Word)255 << shift)) | (value & 255) << shift;
}
static void write_byte(Word c) { if (putchar((int)(c & 255)) == EOF) end(110, "write fault"); }
static void write_number(Word n, int32_t width) {
    if (printf("%*" PRId32, width < 0 ? 0 : width > 255 ? 255 : (int)width, (int32_t)n) < 0) end(110, "write fault");
}
static void write_string(Word s) { for (Word i = 1, n = byte(s, 0); i <= n; i++) write_byte(byte(s, i)); }
static void write_format(Word s, Word argument) {
    for (Word i = 1, n = byte(s, 0); i <= n; i++) {
        Word c = byte(s, i), next = c == '%' && i < n ? byte(s, i + 1) : 0, letter = next & ~(Word)32; /* (the capital) */
        Word digit = letter == 'I' && i + 1 < n ? byte(s, i + 2) - '0' : 10;
        if (next == '%') write_byte('%'), i++;
        else if (letter == 'S') write_string(at(argument++)), i++;
        else if (letter == 'N') write_number(at(argument++), 0), i++;
        else if (letter == 'C') write_byte(at(argument++)), i++;
        else if (digit < 10) write_number(at(argument++), (int32_t)digit), i += 2;
        else write_byte(c);
    }
}
static Word read_byte(void) {
    static int ended;
    if (fflush(stdout) != 0) end(110, "write fault");
    int c = ended ? EOF : getchar();
    if (c == EOF && ferror(stdin)) end(109, "read fault");
    return (ended = c == EOF) ? 0 - (Word)1 : (Word)c;
}
static int64_t divisor(int32_t y) { if (y == 0) end(104, "division by zero"); return y; }
static Word switched(Word c, Word a) {
    Word otherwise = at(c + 1);
    for (int32_t n = (int32_t)at(c); n > 0; n--) {
        Word label = at((c += 2) + 1);
        if (at(c) == a) return label;
    }
    return otherwise;
}

/* Does so many steps, and returns after them. */
static void run(Registers *registers, int64_t steps) {
#define AT(address) (*cell(words, count, address))
    Word *const words = store;
    Word count = size, c = registers->c, p = registers->p, a = registers->a, b = registers->b;
    while (steps-- > 0) {
        Word w = AT(c++), d = w & ADDRESS;
        if (w & LONG) d = AT(c++);
        if (w & FROM_P) d += p;
        if (w & FROM_G) d += GLOBALS;
        if (w & INDIRECT) d = AT(d);
        int32_t x = (int32_t)b, y = (int32_t)a;
        switch (w >> FUNCTION) {
        case 0: b = a; a = d; continue;             case 1: AT(d) = a; continue;                case 2: a += d; continue;
        case 3: c = d; continue;                    case 4: if (a) c = d; continue;             case 5: if (!a) c = d; continue;
        case 6: d += p; AT(d) = p; AT(d + 1) = c; p = d; c = a; continue;
        }
        switch (d) {
        case 1: a = AT(a); break;                   case 2: a = 0 - a; break;                   case 3: a = ~a; break;
        case 4: c = AT(p + 1); p = AT(p); break;    case 5: a = b * a; break;                   case 6: a = (Word)(x / divisor(y)); break;
        case 7: a = (Word)(x % divisor(y)); break;  case 8: a = b + a; break;                   case 9: a = b - a; break;
        case 10: a = 0 - (Word)(x == y); break;     case 11: a = 0 - (Word)(x != y); break;     case 12: a = 0 - (Word)(x < y); break;
        case 13: a = 0 - (Word)(x >= y); break;     case 14: a = 0 - (Word)(x > y); break;      case 15: a = 0 - (Word)(x <= y); break;
        case 16: a = a > 31 ? 0 : b << a; break;    case 17: a = a > 31 ? 0 : b >> a; break;    case 18: a = b & a; break;
        case 19: a = b | a; break;                  case 20: a = b ^ a; break;                  case 21: a = ~(b ^ a); break;
        case 22: end(0, NULL); break;               case 23: c = switched(c, a); break;
        case 24: a = AT(p + 2); end(a < 100 ? (int)a : 100, NULL); break;                       case 25: a = read_byte(); break;
        case 26: write_byte(AT(p + 2)); break;      case 27: write_byte('\n'); break;           case 28: write_string(AT(p + 2)); break;
        case 29: write_number(AT(p + 2), 0); break; case 30: write_number(AT(p + 2), (int32_t)AT(p + 3)); break;
        case 31: a = byte(AT(p + 2), AT(p + 3)); break;     case 32: set_byte(AT(p + 2), AT(p + 3), AT(p + 4)); break;
        case 33: write_format(AT(p + 2), p + 3); break;     case 40: a = byte(b, a); break;
        case 41: set_byte(b, a, AT(p + AT(c++))); break;    default: end(107, "bad operation");
        }
    }
    *registers = (Registers){c, p, a, b};
}

/* Does so many steps, and lists each: its number, C, the instruction, and the registers after it. The name of an entry stands before it. */
static void list(Registers *r, int64_t steps) {
    for (int64_t n = 1; n <= steps; n++, column = 0) {
        Word c = r->c, w = c < size ? store[c] : 0, d = !(w & LONG) ? w & ADDRESS : c + 1 < size ? store[c + 1] : 0;
        if (c < size && names[c]) fprintf(stderr, "%s:\n", names[c]);
        column = fprintf(stderr, "%9" PRId64 " %7" PRIu32 "  %c%s%s%s%" PRId32, n, c, c < size ? FUNCTIONS[w >> FUNCTION] : '?',
                         w & INDIRECT ? "I" : "", w & FROM_P ? "P" : "", w & FROM_G ? "G" : "", (int32_t)d);
        run(r, 1);
        fprintf(stderr, "%*s A %-11" PRId32 " B %-11" PRId32 " P %" PRIu32 "\n", 32 - column, "", (int32_t)r->a, (int32_t)r->b, r->p);
    }
}

int main(int argc, char **argv) {
    int64_t steps = 0, words = 0, sizes = 0, verbose = 0;
    const char *path = NULL, *code = NULL;
    for (int k = argc > 1 && strcmp(argv[1], "interpret") == 0 ? 2 : 1; k < argc; k++) {
        const char *option = argv[k], *value = k + 1 < argc ? argv[k + 1] : "", *rest = "";
        if (*option != '-' && !path) path = option;
        else if (strcmp(option, "--sizes") == 0 && !sizes) sizes = 1;
        else if (strcmp(option, "-v") == 0 && !verbose) verbose = 1;
        else if (strcmp(option, "--ocode") == 0 && !code && *value) code = value, k++;
        else if (strcmp(option, "-s") == 0 && !words) rest = number(value, 4096, 4194304, &words), k++;
        else if (strcmp(option, "-t") == 0 && !steps) rest = number(value, 1, 1000000000000, &steps), k++;
        else rest = NULL;
        if (!rest || *rest) end(112, "bad command line");
    }
    if (!path) end(112, "bad command line");
    FILE *file = fopen(path, "rb"), *ocode = code ? fopen(code, "rb") : NULL;
    if (!file || (code && !ocode)) end(109, "read fault");
    if (words) size = (Word)words;
    store = memory(calloc(size, sizeof *store));
    names = memory(calloc(size, sizeof *names));
    const Word X = (Word)7 << FUNCTION;
    put(1, INDIRECT | FROM_G | 1), put(2, (Word)6 << FUNCTION), put(3, X | 22), put(4, X | 33), put(5, X | 4), put(GLOBALS + 11, 4);
    for (Word g = 2, r = LIBRARY; g <= 10; g++, r += 2) put(GLOBALS + g, r), put(r, X | (g + 22)), put(r + 1, X | 4);
    char word[20];
    for (unsigned long segment = 1; read_word(file, word); segment++) read_segment(file, segment, word), read_names(ocode, segment);
    if (stack + 16 > size) end(105, "store too small");
    if (!store[GLOBALS + 1]) end(108, "no START");
    if (sizes) printf("image %" PRIu32 ", frame %" PRIu32 "\n", stack, frame), end(0, NULL);
    Registers registers = {.c = 1, .p = stack};
    (verbose ? list : run)(&registers, steps ? steps : 1000000000);
    end(106, "step limit");
}
