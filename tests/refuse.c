/* Refuses one request for memory: the one whose number the variable REFUSE gives, and where REFUSE_ON is set each one behind it.
 * Loaded before the C library. */
#include <errno.h>
#include <stddef.h>
#include <stdlib.h>

extern void *__libc_malloc(size_t);
extern void *__libc_calloc(size_t, size_t);
extern void *__libc_realloc(void *, size_t);
extern void *__libc_memalign(size_t, size_t);

static long left = -1;
static int on;

static int refused(void) {
    if (left < 0) {
        const char *number = getenv("REFUSE");
        left = number ? atol(number) : 0;
        on = getenv("REFUSE_ON") != NULL;
    }
    if (left > 1 || !on) {
        return left > 0 && --left == 0;
    }
    return left == 1;
}

void *malloc(size_t n) { return refused() ? NULL : __libc_malloc(n); }
void *calloc(size_t n, size_t m) { return refused() ? NULL : __libc_calloc(n, m); }
void *realloc(void *p, size_t n) { return refused() ? NULL : __libc_realloc(p, n); }
void *aligned_alloc(size_t a, size_t n) { return refused() ? NULL : __libc_memalign(a, n); }
void *memalign(size_t a, size_t n) { return refused() ? NULL : __libc_memalign(a, n); }

int posix_memalign(void **p, size_t a, size_t n) {
    if (refused()) {
        return ENOMEM;
    }
    *p = __libc_memalign(a, n);
    return *p ? 0 : ENOMEM;
}
