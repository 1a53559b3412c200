/*
 * A heap in one array (gefsunk_pool.h): free blocks in a list by address, the first that is large enough is taken, and a block that
 * is freed is joined with its neighbours.
 */
#include "gefsunk_pool.h"
#include <stdint.h>
#include <string.h>

/* Each block begins with this, and has a multiple of 16 bytes. */
struct block {
    size_t bytes;       /* with this */
    struct block *next; /* of the free ones, by address */
};

/* What stands before the bytes of a block. */
#define HEAD ((size_t)16)

static struct block *first;
static size_t left, least;

/* A block of this many bytes with its head; 0 where there is no such number. */
static size_t whole(size_t bytes) {
    return bytes > SIZE_MAX - 2 * HEAD ? 0 : (bytes + HEAD - 1) / HEAD * HEAD + HEAD;
}

/* Joins a free block with the next one, if that lies right behind it. */
static void join(struct block *block) {
    struct block *next = block->next;
    if (next && (unsigned char *)block + block->bytes == (unsigned char *)next) {
        block->bytes += next->bytes;
        block->next = next->next;
    }
}

/* Cuts a block to these bytes, and gives what is behind them, or a null pointer if that is too little for a block of its own. */
static struct block *cut(struct block *block, size_t bytes) {
    struct block *rest = (struct block *)((unsigned char *)block + bytes);
    if (block->bytes - bytes < 2 * HEAD) return NULL;
    rest->bytes = block->bytes - bytes;
    block->bytes = bytes;
    return rest;
}

/* Puts a block among the free ones. */
static void put(struct block *block) {
    struct block *before = NULL, *after = first;
    while (after && after < block) {
        before = after;
        after = after->next;
    }
    left += block->bytes;
    block->next = after;
    if (before)
        before->next = block;
    else
        first = block;
    join(block);
    if (before) join(before);
}

void gef_pool_set(void *memory, size_t bytes) {
    size_t lost = (size_t)(-(uintptr_t)memory & (HEAD - 1));
    first = NULL;
    left = 0;
    if (memory && bytes >= lost + 2 * HEAD) {
        struct block *block = (struct block *)((unsigned char *)memory + lost);
        block->bytes = (bytes - lost) / HEAD * HEAD;
        put(block);
    }
    least = left;
}

size_t gef_pool_left(void) {
    return left;
}

size_t gef_pool_least(void) {
    return least;
}

void *gef_pool_malloc(size_t bytes) {
    size_t wanted = whole(bytes);
    struct block **link = &first, *block, *rest;
    while ((block = *link) && block->bytes < wanted) link = &block->next;
    if (!block || !wanted) return NULL;
    rest = cut(block, wanted);
    if (rest) rest->next = block->next;
    *link = rest ? rest : block->next;
    left -= block->bytes;
    if (left < least) least = left;
    return (unsigned char *)block + HEAD;
}

void *gef_pool_realloc(void *old, size_t bytes) {
    struct block *block = old ? (struct block *)((unsigned char *)old - HEAD) : NULL, *rest;
    size_t wanted = whole(bytes);
    void *new;
    if (block && wanted && block->bytes >= wanted) {
        rest = cut(block, wanted);
        if (rest) put(rest);
        return old;
    }
    new = gef_pool_malloc(bytes);
    if (new && block) {
        memcpy(new, old, block->bytes - HEAD);
        put(block);
    }
    return new;
}

void gef_pool_free(void *old) {
    if (old) put((struct block *)((unsigned char *)old - HEAD));
}
