/* Makes reads and writes fail or shorter. Loaded before the C library. FAIL_CALL=k: of the reads (FAIL=read) or the writes
 * (FAIL=write) of the descriptor FAIL_FD (any above 2 for file), the k-th, from 0 on, fails, and those behind it do; FAIL_AS says as
 * what: error, interrupted, or nothing (a write of 0 bytes). ONE=1: each read and write moves one byte at most. */
#define _GNU_SOURCE
#include <errno.h>
#include <stdlib.h>
#include <string.h>
#include <sys/syscall.h>
#include <unistd.h>

static int ready, fails_reads, descriptor, one;
static long call, seen;
static char as;

static void begin(void) {
    const char *which = getenv("FAIL"), *number = getenv("FAIL_CALL"), *fd = getenv("FAIL_FD"), *how = getenv("FAIL_AS");
    ready = 1;
    one = getenv("ONE") != NULL;
    call = which && number ? atol(number) : -1;
    fails_reads = which && strcmp(which, "read") == 0;
    descriptor = fd ? (strcmp(fd, "file") == 0 ? 3 : atoi(fd)) : -1;
    as = how ? *how : 'e';
}

/* Whether this call fails. */
static int fails(int reads, int fd) {
    if (!ready) {
        begin();
    }
    if (call < 0 || reads != fails_reads || (descriptor == 3 ? fd < 3 : fd != descriptor)) {
        return 0;
    }
    return seen++ >= call;
}

static ssize_t failure(void) {
    if (as == 'n') {
        return 0;
    }
    errno = as == 'i' ? EINTR : EIO;
    return -1;
}

ssize_t read(int fd, void *to, size_t n) {
    if (fails(1, fd)) {
        return failure();
    }
    return syscall(SYS_read, fd, to, one && n > 1 ? 1 : n);
}

ssize_t write(int fd, const void *from, size_t n) {
    if (fails(0, fd)) {
        return failure();
    }
    return syscall(SYS_write, fd, from, one && n > 1 ? 1 : n);
}
