/*
 * The heap of the proved part, over the pool (gefsunk_pool.h): three functions that the toolchain has for x86-64 alone, over malloc,
 * for a processor that it compiles for besides (packaging/README.md).
 */
#include "gefsunk_pool.h"
#include "tried.h"

/* A block's alignment divides 16, as the pool's. */
struct tried rattle_alloc(size_t bytes, size_t alignment) {
    return tried(gef_pool_malloc(bytes ? bytes : alignment));
}

struct tried rattle_realloc(void *block, size_t kept, size_t bytes, size_t alignment) {
    (void)kept;
    return tried(gef_pool_realloc(block, bytes ? bytes : alignment));
}

void rattle_dealloc(void *block) {
    gef_pool_free(block);
}
