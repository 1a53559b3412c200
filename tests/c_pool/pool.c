/*
 * The pool for firmware (c/pool.c) under a program that does anything: pool SECONDS
 *
 * Blocks of random sizes come, grow, shrink and go, in pools of random sizes at any place. Each block has bytes of its own, which
 * must stay; it must lie at a multiple of 16 within the pool, and apart from all others, and takes 16 to 47 bytes more of the pool
 * than were asked for. A pool of which all was given back must be as it was at first: it gives one block with all of it. The last
 * pools are too small for any block, or have just one.
 */
#include <gefsunk_pool.h>
#include <stdint.h>
#include <stdio.h>
#include <stdlib.h>
#include <string.h>
#include <time.h>

#define BLOCKS 64
#define LARGEST 100000

static unsigned char memory[LARGEST + 16];
static struct {
    unsigned char *at;
    size_t bytes, taken; /* as were asked for, and as the pool has less */
    unsigned char mark;
} blocks[BLOCKS];
static unsigned long moved; /* how often a block came to lie elsewhere, as it grew */
static uint64_t state = 88172645463325252u;

static size_t below(size_t bound) {
    state ^= state << 13;
    state ^= state >> 7;
    state ^= state << 17;
    return (size_t)(state % bound);
}

static void must(int holds, const char *what) {
    if (!holds) {
        printf("%s\n", what);
        exit(1);
    }
}

/* Whether a block has its bytes still, up to some. */
static void keeps(int i, size_t bytes) {
    size_t at;
    for (at = 0; at < bytes; at++) must(blocks[i].at[at] == blocks[i].mark, "the bytes of a block changed");
}

/* A block as it was given: it lies where it may, and is filled. */
static void given(int i, unsigned char *at, size_t bytes, const unsigned char *start, size_t size) {
    int other;
    must((uintptr_t)at % 16 == 0, "a block at no multiple of 16");
    must(at >= start && bytes <= size && (size_t)(at - start) <= size - bytes, "a block outside of the pool");
    blocks[i].at = at;
    blocks[i].bytes = bytes;
    blocks[i].mark = (unsigned char)below(256);
    for (other = 0; other < BLOCKS; other++)
        if (other != i && blocks[other].at)
            must(at + bytes <= blocks[other].at || blocks[other].at + blocks[other].bytes <= at, "two blocks share bytes");
    memset(at, blocks[i].mark, bytes);
}

/* A block takes these bytes of the pool: those that were asked for, and 16 to 47 of the pool's own. */
static void takes(int i, size_t taken) {
    must(taken >= blocks[i].bytes + 16 && taken <= blocks[i].bytes + 47, "a block has other bytes of the pool's own");
    blocks[i].taken = taken;
}

static void step(const unsigned char *start, size_t size) {
    int i = (int)below(BLOCKS);
    size_t bytes = below(4) ? below(200) : below(9000), before = gef_pool_left();
    unsigned char *at;
    if (!blocks[i].at) {
        at = below(2) ? gef_pool_malloc(bytes) : gef_pool_realloc(NULL, bytes);
        must(at || gef_pool_left() == before, "a refusal took something");
        if (!at) return;
        given(i, at, bytes, start, size);
        takes(i, before - gef_pool_left());
        return;
    }
    keeps(i, blocks[i].bytes);
    if (below(2)) {
        gef_pool_free(blocks[i].at);
        must(gef_pool_left() == before + blocks[i].taken, "a block was not given back");
        blocks[i].at = NULL;
        return;
    }
    at = gef_pool_realloc(blocks[i].at, bytes);
    if (!at) {
        must(bytes > blocks[i].bytes && gef_pool_left() == before, "a block does not become smaller, or a refusal took something");
        keeps(i, blocks[i].bytes);
        return;
    }
    if (at != blocks[i].at) moved++;
    blocks[i].at = at;
    keeps(i, bytes < blocks[i].bytes ? bytes : blocks[i].bytes);
    given(i, at, bytes, start, size);
    takes(i, blocks[i].taken + before - gef_pool_left());
}

static void one_pool(void) {
    size_t lost = below(17), size = 64 + below(LARGEST - 64), whole, n;
    int i;
    void *all;
    gef_pool_set(memory + lost, size);
    whole = gef_pool_left();
    must(whole <= size && whole + 32 > size && gef_pool_least() == whole, "a pool of another size");
    for (n = below(3000); n > 0; n--) step(memory + lost, size);
    must(gef_pool_least() <= gef_pool_left(), "the least is more than what is left");
    for (i = 0; i < BLOCKS; i++) {
        if (!blocks[i].at) continue;
        keeps(i, blocks[i].bytes);
        gef_pool_free(blocks[i].at);
        blocks[i].at = NULL;
    }
    must(gef_pool_left() == whole, "not all was given back");
    all = gef_pool_malloc(whole - 16);
    must(all != NULL, "the blocks were not joined");
    must(gef_pool_left() == 0 && gef_pool_malloc(1) == NULL && gef_pool_least() == 0, "a pool gave more than it has");
    must(gef_pool_realloc(all, whole - 16) == all && gef_pool_realloc(all, SIZE_MAX) == NULL, "the only block moved, or grew");
    gef_pool_free(all);
    must(gef_pool_malloc(SIZE_MAX) == NULL && gef_pool_malloc(SIZE_MAX - 31) == NULL, "a size that no pool has");
    gef_pool_free(NULL);
}

int main(int words, char **word) {
    time_t end = time(NULL) + (words > 1 ? atoi(word[1]) : 10);
    unsigned long pools = 0;
    size_t size;
    do {
        one_pool();
        pools++;
    } while (time(NULL) < end);
    must(moved > 0, "no block grew");
    for (size = 0; size < 32; size++) {
        gef_pool_set(memory, size);
        must(gef_pool_malloc(0) == NULL && gef_pool_left() == 0, "a pool of less than a block gave one");
    }
    for (size = 32; size < 48; size++) {
        gef_pool_set(memory + (-(uintptr_t)memory & 15), size);
        must(gef_pool_left() == 32 && gef_pool_malloc(16) != NULL && gef_pool_malloc(0) == NULL, "a pool of one block did not give one");
    }
    gef_pool_set(NULL, 1000);
    must(gef_pool_malloc(1) == NULL, "no pool gave a block");
    printf("%lu pools\n", pools);
    return 0;
}
