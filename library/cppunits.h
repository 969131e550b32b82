/* cppunits as a library: runs translation phases 1 to 4 of C11 on a list of translation units, in memory.

   Link libcppunits.a or libcppunits.so, which scripts/library.sh builds: pkg-config has the name cppunits.

   A call runs in the caller's thread.  It reads its list, and writes only what its pointers lead to.  It shares nothing with other
   calls, so threads may call at the same time.  It allocates by malloc and realloc, and frees all of it before it returns.

   What is proved is the output for the bytes of a list (docs/SPECIFICATION.md).  It rests on what C can't promise by itself:
   - Each pointer leads to memory as its comment says.  No other thread writes it during the call, nor reads what the call writes.
   - `list` and `out` don't overlap.
   - The thread has 256 KB of stack left.
   - malloc, realloc and free are those of one allocator, with blocks aligned to 16 bytes.
   - No call is made in a signal handler, or in the child of a fork of a process that had several threads.
   - This header and cppunits.c, which is the only part in C, are right.  */
#ifndef CPPUNITS_H
#define CPPUNITS_H

#include <stddef.h>
#include <stdint.h>

#ifdef __cplusplus
extern "C" {
#endif

/* What is printed of each unit, as by the program's subcommands of these names (docs/FORMAT.md).  */
enum {
    CPPUNITS_DUMP = 0,   /* tokens with kinds and locations, pragmas, dependencies and the first fault */
    CPPUNITS_DEPS = 1,   /* dependencies and the first fault */
    CPPUNITS_TEXT = 2,   /* the text that a compiler takes, dependencies and the first fault */
    CPPUNITS_FAULTS = 3  /* the include lines that lead to the first fault, and the fault */
};

/* How a call ends.  From 2 on nothing is written to `out`, and the length is 0.  */
enum {
    CPPUNITS_OK = 0,      /* no unit has a fault */
    CPPUNITS_FAULT = 1,   /* a unit has a fault, which the output says */
    CPPUNITS_REFUSED = 2, /* the list is refused, with the number that `refusal` has */
    CPPUNITS_MEMORY = 3,  /* an allocation failed */
    CPPUNITS_MODE = 4,    /* `mode` is none of those above */
    CPPUNITS_NULL = 5,    /* a pointer is null that mustn't be; `length` and `refusal` are untouched */
    CPPUNITS_SIZE = 6,    /* `size` or `room` is larger than PTRDIFF_MAX, which no block of memory is */
    CPPUNITS_RANDOM = 7   /* the system has no random bytes, which the key of the hash function is made of */
};

/* Preprocesses the units of a list, and prints their output to memory.

   list     The list: JSON with the contents of its files, as the program reads it from standard input without --root
            (docs/FORMAT.md).  Null only if `size` is 0.
   size     Its number of bytes.  A list of more than 268,435,456 bytes is refused with number 1.
   mode     CPPUNITS_DUMP, CPPUNITS_DEPS, CPPUNITS_TEXT or CPPUNITS_FAULTS.
   out      Where the output goes, if there is room for the whole: the bytes that the program prints, without a null byte at
            the end.  What follows the output in `out` stays as it was.  Null only if `room` is 0.
   room     The number of bytes that `out` has room for.
   length   Gets the number of bytes of the whole output.  If it is larger than `room`, `out` is unchanged: call again with
            that much room.  The list has the same output then.
   refusal  Gets the number of the refusal, 1 to 11 (docs/FAULTS.md), or 0.

   Returns one of the statuses above.  Each call draws a key for its hash function, so that nobody can choose names that
   collide.  Time and memory grow with the list and its output; a list's budget bounds both.  */
uint32_t cppunits_print(const uint8_t *list, size_t size, uint32_t mode, uint8_t *out, size_t room, size_t *length,
                        uint32_t *refusal);

#ifdef __cplusplus
}
#endif

#endif
