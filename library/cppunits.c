/* The part of the library that is written in C: it refuses what no proved function can be passed, and draws a key. */
#include "cppunits.h"
#include <unistd.h>

/* as `Options` and `Counts` of crates/cppunits_c/src/lib.rt */
struct options {
    uint32_t mode;
    uint64_t key[2];
};

struct counts {
    size_t length;
    uint32_t refusal;
};

/* the proved function: its pointers aren't null, and its sizes are at most PTRDIFF_MAX */
uint32_t cppunits_proved_print(const uint8_t *list, size_t size, const struct options *options, uint8_t *out, size_t room,
                               struct counts *counts);

uint32_t cppunits_print(const uint8_t *list, size_t size, uint32_t mode, uint8_t *out, size_t room, size_t *length,
                        uint32_t *refusal)
{
    struct options options = {0};
    struct counts counts = {0, 0};
    uint8_t none = 0;
    uint32_t status = CPPUNITS_SIZE;

    if ((!list && size) || (!out && room) || !length || !refusal)
        return CPPUNITS_NULL;
    options.mode = mode;
    if (size <= PTRDIFF_MAX && room <= PTRDIFF_MAX)
        status = getentropy(options.key, sizeof options.key)
                     ? CPPUNITS_RANDOM
                     : cppunits_proved_print(list ? list : &none, size, &options, out ? out : &none, room, &counts);
    *length = counts.length;
    *refusal = counts.refusal;
    return status;
}
