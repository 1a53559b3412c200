/*
 * gefsunk_pool.h - a heap of a fixed size, for firmware.
 *
 * packaging/firmware builds a library of the calls gef_pm_* and gef_fis_text that takes its memory from one array of yours, and
 * from nowhere else. Give it the array before the first other call:
 *
 *     static unsigned char memory[300000];
 *     gef_pool_set(memory, sizeof memory);
 *
 * Where the array has no room, a call returns GEF_NO_MEMORY, and changes nothing. As everywhere in the library, one call at a
 * time: the handles of a program share the pool.
 */
#ifndef GEFSUNK_POOL_H
#define GEFSUNK_POOL_H

#include <stddef.h>

#ifdef __cplusplus
extern "C" {
#endif

/* The array is the heap from now on. What was made before is lost: free each handle first. The array stays yours to keep. */
void gef_pool_set(void *memory, size_t bytes);

/* How many bytes are not given out now; at most so many since the array was set. Blocks have 16 to 47 bytes of the pool's own. */
size_t gef_pool_left(void);
size_t gef_pool_least(void);

/* The heap itself, which the firmware may use, too. A block lies at a multiple of 16 bytes. */
void *gef_pool_malloc(size_t bytes);
void *gef_pool_realloc(void *block, size_t bytes);
void gef_pool_free(void *block);

#ifdef __cplusplus
}
#endif

#endif
