/*
 * refusing.h - memory that is refused once, or as long as one says. Include it first, and link with -Wl,--wrap=malloc,--wrap=realloc.
 */
#ifndef REFUSING_H
#define REFUSING_H

#include <stddef.h>

static int is_watched;
static unsigned long asked, refused; /* how often memory was asked for; the one that is refused */
static int is_dry;                   /* all is refused */

/* A call, and the same once more where memory was refused. */
#define CALL(status, call) \
    do { \
        is_watched = 1; \
        (status) = (call); \
        if ((status) == GEF_NO_MEMORY && refused) (status) = (call); \
        is_watched = 0; \
    } while (0)

void *__real_malloc(size_t len);
void *__real_realloc(void *at, size_t len);
void *__wrap_malloc(size_t len);
void *__wrap_realloc(void *at, size_t len);

void *__wrap_malloc(size_t len) {
    return is_dry || (is_watched && ++asked == refused) ? 0 : __real_malloc(len);
}

void *__wrap_realloc(void *at, size_t len) {
    return is_dry || (is_watched && ++asked == refused) ? 0 : __real_realloc(at, len);
}

#endif
