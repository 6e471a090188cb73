// Loaded before the C library, it refuses one request for memory: that of the number in REFUSED. With HALTING set, each write takes one
// byte, after one that was interrupted.
#include <errno.h>
#include <stddef.h>
#include <stdlib.h>
#include <sys/syscall.h>
#include <unistd.h>

void *__libc_malloc(size_t size);
void *__libc_realloc(void *block, size_t size);

static int is_refused(void) {
    static long requests;
    static long refused;
    if (requests == 0) {
        const char *number = getenv("REFUSED");
        refused = number ? atol(number) : 0;
    }
    requests += 1;
    return requests == refused;
}

void *malloc(size_t size) {
    return is_refused() ? NULL : __libc_malloc(size);
}

void *realloc(void *block, size_t size) {
    return is_refused() ? NULL : __libc_realloc(block, size);
}

ssize_t write(int descriptor, const void *bytes, size_t size) {
    static int is_interrupted;
    if (getenv("HALTING")) {
        is_interrupted = !is_interrupted;
        if (is_interrupted) {
            errno = EINTR;
            return -1;
        }
        size = size > 1 ? 1 : size;
    }
    return syscall(SYS_write, descriptor, bytes, size);
}
