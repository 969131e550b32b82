/* A preloaded malloc that refuses one request for memory: the one whose number, from 1, is in REFUSED_CALL; and all after it
 * where REFUSED_ON is there.
 * When it first refuses, it writes one byte to the descriptor REFUSAL_FD, so that the caller knows that this run met it.
 * Built and used by refusals.py alone; it is no part of the program. */
#include <errno.h>
#include <stddef.h>
#include <stdlib.h>
#include <unistd.h>

extern void *__libc_malloc(size_t);
extern void *__libc_calloc(size_t, size_t);
extern void *__libc_realloc(void *, size_t);
extern void *__libc_memalign(size_t, size_t);

static _Atomic long calls;

static int refused(void) {
    const char *wanted = getenv("REFUSED_CALL");
    const char *told = getenv("REFUSAL_FD");
    long first = wanted == NULL ? 0 : atol(wanted);
    long call = ++calls;
    if (first == 0 || call < first || (call > first && getenv("REFUSED_ON") == NULL)) {
        return 0;
    }
    if (call == first && told != NULL && write(atoi(told), "x", 1) != 1) {
        _exit(99);
    }
    errno = ENOMEM;
    return 1;
}

void *malloc(size_t size) {
    return refused() ? NULL : __libc_malloc(size);
}

void *calloc(size_t count, size_t size) {
    return refused() ? NULL : __libc_calloc(count, size);
}

void *realloc(void *old, size_t size) {
    return refused() ? NULL : __libc_realloc(old, size);
}

void *memalign(size_t alignment, size_t size) {
    return refused() ? NULL : __libc_memalign(alignment, size);
}

void *aligned_alloc(size_t alignment, size_t size) {
    return refused() ? NULL : __libc_memalign(alignment, size);
}

int posix_memalign(void **result, size_t alignment, size_t size) {
    if (refused()) {
        return ENOMEM;
    }
    *result = __libc_memalign(alignment, size);
    return *result == NULL ? ENOMEM : 0;
}
