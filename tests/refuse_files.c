/* Preloaded `statx`, `open` and `read`, one call of which fails: the one whose number, from 1, is in REFUSED_CALL, with the error
 * whose number is in REFUSED_ERROR; and all after it if REFUSED_ON is set. The standard streams are left alone, and not
 * counted.
 * When it first refuses, it writes one byte to the descriptor REFUSAL_FD, so that the caller knows that this run met it.
 * Built and used by refusals.py alone; it is no part of the program. */
#define _GNU_SOURCE
#include <errno.h>
#include <fcntl.h>
#include <stdarg.h>
#include <stdlib.h>
#include <sys/stat.h>
#include <sys/syscall.h>
#include <unistd.h>

static _Atomic long calls;

static int refused(void) {
    const char *wanted = getenv("REFUSED_CALL");
    const char *error = getenv("REFUSED_ERROR");
    const char *told = getenv("REFUSAL_FD");
    long first = wanted == NULL ? 0 : atol(wanted);
    long call = ++calls;
    if (first == 0 || error == NULL || call < first || (call > first && getenv("REFUSED_ON") == NULL)) {
        return 0;
    }
    if (call == first && told != NULL && write(atoi(told), "x", 1) != 1) {
        _exit(99);
    }
    errno = atoi(error);
    return 1;
}

int statx(int folder, const char *restrict path, int flags, unsigned int mask, struct statx *restrict found) {
    return refused() ? -1 : (int)syscall(SYS_statx, folder, path, flags, mask, found);
}

int open(const char *path, int flags, ...) {
    va_list rest;
    va_start(rest, flags);
    int mode = flags & (O_CREAT) ? va_arg(rest, int) : 0;
    va_end(rest);
    return refused() ? -1 : (int)syscall(SYS_openat, AT_FDCWD, path, flags, mode);
}

ssize_t read(int file, void *bytes, size_t size) {
    return file > STDERR_FILENO && refused() ? -1 : syscall(SYS_read, file, bytes, size);
}
