/* Stands between a program and the C library's read, write, lseek and fdatasync, as a library that is loaded first
 * (LD_PRELOAD), for files that the program opened itself: descriptors from 3 on. The environment says which call is met,
 * counted from 1:
 *
 *     STOP_WRITE=N   the process ends at once, with status 99, in place of the Nth write
 *     STOP_SYNC=N    the same in place of the Nth fdatasync
 *     FAIL_FILE=N    the Nth of all these calls fails
 *     FAIL_READ=L    each read of sector L (512 bytes) fails until the sector is written
 *
 * At the end of the program a line on standard error says how many calls, writes and syncs came, and how many writes after the
 * last sync that was done: `calls K writes W syncs S loose L`. */
#include <errno.h>
#include <stdio.h>
#include <stdlib.h>
#include <sys/syscall.h>
#include <sys/types.h>
#include <unistd.h>

static long calls, writes, syncs, loose, stop_write, stop_sync, fail_file, fail_read;

static long given(const char *name)
{
    const char *text = getenv(name);
    return text ? atol(text) : 0;
}

__attribute__((constructor)) static void begin(void)
{
    stop_write = given("STOP_WRITE");
    stop_sync = given("STOP_SYNC");
    fail_file = given("FAIL_FILE");
    fail_read = getenv("FAIL_READ") ? given("FAIL_READ") : -1;
}

static void __attribute__((noreturn)) leave(int status)
{
    syscall(SYS_exit_group, status);
    __builtin_unreachable();
}

__attribute__((destructor)) static void end(void)
{
    static int is_said;
    if (is_said++)
        return;
    char text[90];
    int length = snprintf(text, sizeof text, "calls %ld writes %ld syncs %ld loose %ld\n", calls, writes, syncs, loose);
    if (syscall(SYS_write, 2, text, length) != length)
        abort();
}

/* Whether a call on this descriptor fails. */
static int fails(int fd)
{
    if (fd < 3 || ++calls != fail_file)
        return 0;
    errno = EIO;
    return 1;
}

/* Whether so many bytes from where the file stands have the sector that cannot be read. */
static int has_unread(int fd, size_t length)
{
    long at = fd < 3 || fail_read < 0 ? -1 : syscall(SYS_lseek, fd, 0, SEEK_CUR);
    return at >= 0 && at <= 512 * fail_read && 512 * fail_read < at + (long)length;
}

ssize_t read(int fd, void *room, size_t length)
{
    if (fails(fd))
        return -1;
    if (has_unread(fd, length)) {
        errno = EIO;
        return -1;
    }
    return syscall(SYS_read, fd, room, length);
}

ssize_t write(int fd, const void *bytes, size_t length)
{
    if (fd >= 3 && ++writes == stop_write)
        leave(99);
    if (fails(fd))
        return -1;
    loose += fd >= 3;
    if (has_unread(fd, length))
        fail_read = -1;
    return syscall(SYS_write, fd, bytes, length);
}

off_t lseek(int fd, off_t at, int whence)
{
    return fails(fd) ? -1 : syscall(SYS_lseek, fd, at, whence);
}

int fdatasync(int fd)
{
    if (++syncs == stop_sync)
        leave(99);
    if (fails(fd))
        return -1;
    loose = 0;
    return (int)syscall(SYS_fdatasync, fd);
}

/* A program may end without a return from its main function. */
void __attribute__((noreturn)) _exit(int status)
{
    end();
    leave(status);
}
