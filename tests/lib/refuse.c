/* Stands between a program and the C library's malloc, realloc, read and write, as a library that is loaded first
 * (LD_PRELOAD), and has some of these calls fail. The environment says which, counted from 1:
 *
 *     REFUSE_MEMORY=N   the Nth call of malloc or realloc gets no memory
 *     REFUSE_FROM=N     nor does any call after it
 *     FAIL_READ=N       the Nth read of standard input fails
 *     FAIL_WRITE=N      the Nth write to standard output fails
 *     SHORT_READ=N      the Nth read of several bytes of standard input gets one; N 0: each
 *     SHORT_WRITE=N     the Nth write of several bytes to standard output moves one; N 0: each
 *
 * At the end of the program the line `none` on standard error says that the call which was to fail did not come, and
 * `after K` that K more writes to standard output came after one that failed. */
#include <errno.h>
#include <stdatomic.h>
#include <stdio.h>
#include <stdlib.h>
#include <sys/syscall.h>
#include <unistd.h>

extern void *__libc_malloc(size_t);
extern void *__libc_realloc(void *, size_t);

enum { MEMORY, MEMORY_FROM, READ, WRITE, SHORT_READ, SHORT_WRITE, KINDS };

static const char *const NAMES[KINDS] = {"REFUSE_MEMORY", "REFUSE_FROM", "FAIL_READ", "FAIL_WRITE", "SHORT_READ", "SHORT_WRITE"};

/* The number of the call that is to be met, or -1 where none is. */
static long wanted[KINDS] = {-1, -1, -1, -1, -1, -1};

/* How many calls came. */
static atomic_long came[KINDS];

/* Whether the end was told. */
static atomic_int is_said;

__attribute__((constructor)) static void begin(void)
{
    for (int kind = 0; kind < KINDS; kind++) {
        const char *given = getenv(NAMES[kind]);
        if (given)
            wanted[kind] = atol(given);
    }
}

static int is_met(int kind)
{
    if (wanted[kind] < 0)
        return 0;
    long number = atomic_fetch_add(&came[kind], 1) + 1;
    return wanted[kind] == 0 || wanted[kind] == number || (kind == MEMORY_FROM && wanted[kind] < number);
}

static int gets_memory(void)
{
    if (!is_met(MEMORY) && !is_met(MEMORY_FROM))
        return 1;
    errno = ENOMEM;
    return 0;
}

static void say(const char *text, int length)
{
    if (syscall(SYS_write, 2, text, length) != length)
        abort();
}

__attribute__((destructor)) static void end(void)
{
    if (atomic_exchange(&is_said, 1))
        return;
    for (int kind = 0; kind < KINDS; kind++)
        if (wanted[kind] > atomic_load(&came[kind]))
            say("none\n", 5);
    if (wanted[WRITE] > 0 && atomic_load(&came[WRITE]) > wanted[WRITE]) {
        char text[40];
        say(text, snprintf(text, sizeof text, "after %ld\n", atomic_load(&came[WRITE]) - wanted[WRITE]));
    }
}

void *malloc(size_t size)
{
    return gets_memory() ? __libc_malloc(size) : NULL;
}

void *realloc(void *block, size_t size)
{
    return gets_memory() ? __libc_realloc(block, size) : NULL;
}

static ssize_t failed(void)
{
    errno = EIO;
    return -1;
}

ssize_t read(int file, void *bytes, size_t count)
{
    if (file == 0 && is_met(READ))
        return failed();
    if (file == 0 && count > 1 && is_met(SHORT_READ))
        count = 1;
    return syscall(SYS_read, file, bytes, count);
}

static ssize_t written(int file, const void *bytes, size_t count)
{
    if (file == 1 && is_met(WRITE))
        return failed();
    if (file == 1 && count > 1 && is_met(SHORT_WRITE))
        count = 1;
    return syscall(SYS_write, file, bytes, count);
}

ssize_t write(int file, const void *bytes, size_t count)
{
    return written(file, bytes, count);
}

ssize_t __write(int file, const void *bytes, size_t count)
{
    return written(file, bytes, count);
}

/* A program may end without a return from its main function. */
void _exit(int status)
{
    end();
    syscall(SYS_exit_group, status);
    __builtin_unreachable();
}
