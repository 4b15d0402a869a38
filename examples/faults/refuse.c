/* Preloaded into a program: of its requests for memory the one with the number in REFUSED is refused, and file 9 then has a
 * byte: `!`, or `-` where nothing was read yet, or where so much was asked for as an arena asks for a chunk of cells. Each read of
 * standard input gives one byte, which is written to file 8 too. */
#define _GNU_SOURCE
#include <dlfcn.h>
#include <errno.h>
#include <stdlib.h>
#include <unistd.h>

/* An arena's second chunk has nearly a kilobyte, and each further one twice as much. Its first is smaller. */
enum { CHUNK = 900 };

static long count;
static int has_read;

static int is_refused(size_t size) {
    const char *number = getenv("REFUSED");
    if (number == NULL || ++count != atol(number)) return 0;
    if (write(9, has_read && size < CHUNK ? "!" : "-", 1) != 1) abort();
    errno = ENOMEM;
    return 1;
}

#define NEXT(name) \
    static __typeof__(&name) next; \
    if (next == NULL) next = (__typeof__(&name))dlsym(RTLD_NEXT, #name)

void *malloc(size_t size) {
    NEXT(malloc);
    return is_refused(size) ? NULL : next(size);
}

void *realloc(void *old, size_t size) {
    NEXT(realloc);
    return is_refused(size) ? NULL : next(old, size);
}

void *aligned_alloc(size_t alignment, size_t size) {
    NEXT(aligned_alloc);
    return is_refused(size) ? NULL : next(alignment, size);
}

ssize_t read(int file, void *buffer, size_t size) {
    NEXT(read);
    has_read |= file == 0;
    ssize_t got = next(file, buffer, file == 0 && size > 0 ? 1 : size);
    if (file == 0 && got == 1 && write(8, buffer, 1) != 1) abort();
    return got;
}
