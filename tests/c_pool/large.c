/*
 * The heap of a host (c/large.c) under threads that do anything: large SECONDS
 *
 * Blocks of random sizes come and grow in four threads, and go in any of them. Each has bytes of its own, which must stay, and lies at a
 * multiple of 16. Then, alone: a large block that was freed comes again for one of its size, not for one that is twice as large or less
 * than half, and what waits for that is bounded.
 */
#define _DEFAULT_SOURCE
#include <malloc.h>
#include <pthread.h>
#include <stdint.h>
#include <stdio.h>
#include <stdlib.h>
#include <string.h>
#include <time.h>

struct tried {
    _Bool is_there;
    void *at;
};
struct tried rattle_alloc(size_t bytes, size_t alignment);
struct tried rattle_realloc(void *block, size_t kept, size_t bytes, size_t alignment);
void rattle_dealloc(void *block);

enum { BLOCKS = 64, THREADS = 4, LARGEST = 300000 };

/* A block is of the thread that took it from here. */
typedef struct {
    unsigned char *at;
    size_t bytes;
    unsigned char mark;
} held;
static held blocks[BLOCKS];
static pthread_mutex_t lock = PTHREAD_MUTEX_INITIALIZER;
static time_t end;

static void must(int holds, const char *what) {
    if (!holds) {
        puts(what);
        exit(1);
    }
}

static unsigned char *block_of(size_t bytes) {
    struct tried tried = rattle_alloc(bytes, 16);
    must(tried.is_there && (uintptr_t)tried.at % 16 == 0, "a block is not there, or lies where none may");
    return tried.at;
}

/* Whether a block has its bytes still: the first, the last, and some between. */
static int has_its_bytes(const unsigned char *at, size_t bytes, unsigned char mark) {
    for (size_t i = 0; i < bytes; i += i + 64 < bytes ? 64 : 1) {
        if (at[i] != mark) return 0;
    }
    return 1;
}

static held taken_from(size_t place) {
    held it;
    pthread_mutex_lock(&lock);
    it = blocks[place];
    blocks[place].at = NULL;
    pthread_mutex_unlock(&lock);
    return it;
}

/* Where another thread put one meanwhile, it goes. */
static void put_to(size_t place, held it) {
    pthread_mutex_lock(&lock);
    if (!blocks[place].at) {
        blocks[place] = it;
        it.at = NULL;
    }
    pthread_mutex_unlock(&lock);
    rattle_dealloc(it.at);
}

/* A block that was there goes or grows; where none was, one comes. Whether there is one now. */
static int changes(held *it, uint64_t chance) {
    if (!it->at) {
        it->bytes = (chance >> 33) % LARGEST + 1;
        it->at = block_of(it->bytes);
        return 1;
    }
    must(has_its_bytes(it->at, it->bytes, it->mark), "a block has other bytes");
    if (chance >> 32 & 1) {
        rattle_dealloc(it->at);
        return 0;
    }
    it->at = rattle_realloc(it->at, it->bytes, it->bytes + 5000, 16).at;
    must(it->at && has_its_bytes(it->at, it->bytes, it->mark), "a block that grew has other bytes");
    it->bytes += 5000;
    return 1;
}

static void *plays(void *seed) {
    uint64_t state = 88172645463325252u + (uintptr_t)seed;
    while (time(NULL) < end) {
        held it;
        state ^= state << 13;
        state ^= state >> 7;
        state ^= state << 17;
        it = taken_from(state % BLOCKS);
        if (changes(&it, state)) {
            it.mark = (unsigned char)(state >> 24);
            memset(it.at, it.mark, it.bytes);
            put_to(state % BLOCKS, it);
        }
    }
    return NULL;
}

/* What a C library holds for the blocks that wait. */
static void is_bounded(void) {
    enum { MANY = 40, SIZE = 1 << 20 };
    unsigned char *many[MANY], *one = block_of(100000), *again;
    size_t before;
    rattle_dealloc(one);
    again = block_of(100000);
    must(again == one, "a large block does not come again");
    rattle_dealloc(again);
    again = block_of(40000);
    must(malloc_usable_size(again) / 2 <= 40000, "a block comes for one of less than half of its size");
    rattle_dealloc(again);
    again = block_of(150000);
    must(malloc_usable_size(again) >= 150000, "a block comes for a larger one");
    rattle_dealloc(again);
    before = mallinfo2().uordblks + mallinfo2().hblkhd;
    for (int i = 0; i < MANY; i++) many[i] = block_of(SIZE);
    for (int i = 0; i < MANY; i++) rattle_dealloc(many[i]);
    must(mallinfo2().uordblks + mallinfo2().hblkhd < before + (9u << 20), "more waits than 8 MiB");
    one = block_of(1000);
    rattle_dealloc(one);
}

int main(int argc, char **argv) {
    pthread_t threads[THREADS];
    end = time(NULL) + (argc > 1 ? atoi(argv[1]) : 3);
    for (uintptr_t i = 0; i < THREADS; i++) must(!pthread_create(&threads[i], NULL, plays, (void *)(i * 12345)), "no thread");
    for (int i = 0; i < THREADS; i++) pthread_join(threads[i], NULL);
    for (int i = 0; i < BLOCKS; i++) rattle_dealloc(blocks[i].at);
    is_bounded();
    return 0;
}
