/* Preloaded into a program: each write to standard output takes one byte, and the one with the number in FAILED fails, as on a device
 * without room. The writes behind it would be taken. */
#define _GNU_SOURCE
#include <dlfcn.h>
#include <errno.h>
#include <stdlib.h>
#include <unistd.h>

static long count;

ssize_t write(int file, const void *bytes, size_t size) {
    static __typeof__(&write) next;
    if (next == NULL) next = (__typeof__(&write))dlsym(RTLD_NEXT, "write");
    if (file != 1 || size == 0) return next(file, bytes, size);
    const char *number = getenv("FAILED");
    if (number != NULL && ++count == atol(number)) {
        errno = ENOSPC;
        return -1;
    }
    return next(file, bytes, 1);
}
