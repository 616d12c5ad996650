/* Memory between two pages that may not be touched.
 *
 * The archive is not built with the sanitizers, so they can't see what it does
 * with a buffer. A page that may not be touched can: one byte read or written
 * beyond the end that lies at it stops the program there. */
#ifndef ARENA_H
#define ARENA_H

#include <stddef.h>
#include <stdint.h>
#include <sys/mman.h>
#include <unistd.h>

#include "hold.h"

typedef struct arena {
    uint8_t *start;
    size_t size;
} arena;

/* A stretch of memory that is handed to a call. */
typedef struct bytes {
    uint8_t *start;
    size_t len;
} bytes;

static inline arena arena_of(size_t size) {
    size_t page = (size_t)sysconf(_SC_PAGESIZE);
    size_t inner = (size + page - 1) / page * page;
    uint8_t *all = mmap(NULL, inner + 2 * page, PROT_READ | PROT_WRITE,
                        MAP_PRIVATE | MAP_ANONYMOUS, -1, 0);
    HOLD(all != MAP_FAILED);
    HOLD(mprotect(all, page, PROT_NONE) == 0);
    HOLD(mprotect(all + page + inner, page, PROT_NONE) == 0);
    arena made = {all + page, inner};
    return made;
}

/* Exactly `len` bytes at one end of the arena. */
static inline bytes stretch(arena in, size_t len, int at_start) {
    HOLD(len <= in.size);
    bytes made = {at_start ? in.start : in.start + in.size - len, len};
    return made;
}

#endif
