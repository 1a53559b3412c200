/*
 * What the proved part calls for a block of memory (c/large.c on a host, c/heap.c over a pool).
 */
#ifndef TRIED_H
#define TRIED_H

#include <stddef.h>

/* Whether there is memory, and where; without any, a place that nobody owns. */
struct tried {
    _Bool is_there;
    void *at;
};

static inline struct tried tried(void *at) {
    static unsigned char nothing[16];
    struct tried result;
    result.is_there = at != NULL;
    result.at = at ? at : nothing;
    return result;
}

struct tried rattle_alloc(size_t bytes, size_t alignment);
struct tried rattle_realloc(void *block, size_t kept, size_t bytes, size_t alignment);
void rattle_dealloc(void *block);

#endif
