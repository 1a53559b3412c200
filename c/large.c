/*
 * The heap of the proved part on a host: malloc and free, and of large blocks the last few that were freed wait for the next.
 *
 * A block as long as its sectors is allocated for each load and each store. glibc gives the pages of such blocks back to the system as
 * they are freed, and to have new pages filled takes half of the time of a long transfer. What waits here is bounded, belongs to no
 * handle, and serves all threads of the process.
 */
#define _DEFAULT_SOURCE
#include "tried.h"
#include <stdlib.h>

#ifdef __GLIBC__
#include <malloc.h>
#include <pthread.h>

enum { PLACES = 40 };
#define LARGE ((size_t)32 << 10)
#define MOST ((size_t)8 << 20) /* bytes of all blocks that wait */

static struct {
    void *at; /* NULL: none */
    size_t room;
} places[PLACES];
static size_t waiting; /* their bytes */
static unsigned turn;
static pthread_mutex_t lock = PTHREAD_MUTEX_INITIALIZER;

/* The block of a place, which is empty then. */
static void *taken(unsigned place) {
    void *at = places[place].at;
    places[place].at = NULL;
    waiting -= at ? places[place].room : 0;
    return at;
}

/*
 * A block of at least so many bytes, and of at most twice as many. Where none waits, the block of the next place goes, so that blocks of
 * a size that nobody uses do not stay.
 */
static void *take_large(size_t bytes) {
    void *at = NULL, *old = NULL;
    if (bytes < LARGE) return NULL;
    pthread_mutex_lock(&lock);
    for (unsigned place = 0; !at && place < PLACES; place++) {
        if (places[place].at && places[place].room >= bytes && places[place].room / 2 <= bytes) at = taken(place);
    }
    if (!at) old = taken(turn++ % PLACES);
    pthread_mutex_unlock(&lock);
    free(old);
    return at;
}

static void give(void *block) {
    size_t room = block ? malloc_usable_size(block) : 0;
    if (room >= LARGE && room <= MOST) {
        pthread_mutex_lock(&lock);
        for (unsigned place = 0; block && place < PLACES && waiting + room <= MOST; place++) {
            if (!places[place].at) {
                places[place].at = block;
                places[place].room = room;
                waiting += room;
                block = NULL;
            }
        }
        pthread_mutex_unlock(&lock);
    }
    free(block);
}
#else
static void *take_large(size_t bytes) {
    (void)bytes;
    return NULL;
}

static void give(void *block) {
    free(block);
}
#endif

/* A block's alignment divides 16, as malloc's. */
struct tried rattle_alloc(size_t bytes, size_t alignment) {
    void *large = take_large(bytes);
    return tried(large ? large : malloc(bytes ? bytes : alignment));
}

struct tried rattle_realloc(void *block, size_t kept, size_t bytes, size_t alignment) {
    (void)kept;
    return tried(realloc(block, bytes ? bytes : alignment));
}

void rattle_dealloc(void *block) {
    give(block);
}
