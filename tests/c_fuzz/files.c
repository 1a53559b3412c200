/*
 * A disk over a file (gefsunk_files.h), where calls on the file are short, are interrupted, or fail: what the guest hears, and what
 * the file has. `files` takes no argument.
 *
 * Link it with -Wl,--wrap=pread,--wrap=pwrite,--wrap=fdatasync,--wrap=fallocate. Status 1 where something is not so.
 */
#define _GNU_SOURCE
#include "gefsunk_files.h"
#define SLOT_BYTES 0x2000
#include "driver.h"

enum { SECTORS = 64, READ = 0x25, WRITE = 0x35, FLUSH = 0xEA, TRIM = 0x06 };

static uint8_t room[GEF_FILES_ROOM];
static int file, is_late; /* the file is late: its next event is kept */
static gef_event kept;

/* ---- calls on the file -------------------------------------------------------------------------------------------- */

static unsigned calls, failing; /* how many there were; which of them fails, 0 for none */
static int why;

ssize_t __real_pread(int fd, void *bytes, size_t len, off_t at);
ssize_t __real_pwrite(int fd, const void *bytes, size_t len, off_t at);
int __real_fdatasync(int fd);
ssize_t __wrap_pread(int fd, void *bytes, size_t len, off_t at);
ssize_t __wrap_pwrite(int fd, const void *bytes, size_t len, off_t at);
int __wrap_fdatasync(int fd);
int __wrap_fallocate(int fd, int mode, off_t at, off_t len);

enum { MOST_HOLES = 4 };
static struct {
    int mode;
    off_t at, len;
} holes[MOST_HOLES]; /* what fallocate was asked for */
static unsigned holes_asked;

static int is_failing(void) {
    if (++calls != failing) return 0;
    errno = why;
    return 1;
}

/* A call moves a sector at most. */
ssize_t __wrap_pread(int fd, void *bytes, size_t len, off_t at) {
    return is_failing() ? -1 : __real_pread(fd, bytes, len < 512 ? len : 512, at);
}

ssize_t __wrap_pwrite(int fd, const void *bytes, size_t len, off_t at) {
    return is_failing() ? -1 : __real_pwrite(fd, bytes, len < 512 ? len : 512, at);
}

int __wrap_fdatasync(int fd) {
    return is_failing() ? -1 : __real_fdatasync(fd);
}

/* No hole is made, so what is asked for shows on any file system. */
int __wrap_fallocate(int fd, int mode, off_t at, off_t len) {
    if (fd != file || holes_asked >= MOST_HOLES) fail("a hole", holes_asked);
    holes[holes_asked].mode = mode;
    holes[holes_asked].at = at;
    holes[holes_asked++].len = len;
    return 0;
}

/* ---- the guest ---------------------------------------------------------------------------------------------------- */

static int step(void) {
    gef_event event;
    must("next", gef_machine_next(&machine, &event));
    if (event.kind == GEF_EVENT_READ_GUEST) read_guest(&event);
    if (event.kind == GEF_EVENT_WRITE_GUEST) write_guest(&event);
    if (gef_files_is_for(&event) && is_late) kept = event;
    else if (gef_files_is_for(&event)) must("file", gef_files_serve(&machine, file, room, &event));
    return event.kind != GEF_EVENT_NOTHING;
}

/* A command of 8 sectors from sector 8 on, or of none: its Error, and the sector that it names. */
static uint32_t error_of(uint8_t code, unsigned fails, int reason, uint8_t *sector) {
    uint32_t bytes = code == FLUSH ? 0 : code == TRIM ? 512 : 4096, shown;
    write_register(CMD, 0x20010);
    write_register(CMD, 0x20018);
    write_register(CMD, 0x20011);
    calls = 0;
    failing = fails;
    why = reason;
    plain(0, code, code == TRIM, code == TRIM ? 0 : 8, (uint8_t)(bytes / 512), bytes, code == WRITE || code == TRIM);
    failing = 0;
    shown = read_register(0x120);
    if (shown & 0x88) fail("the command did not end", shown);
    if (!(shown & 1) != !(shown >> 8)) fail("an Error without ERR, or ERR without Error", shown);
    *sector = memory[AREA + 0x44];
    return shown >> 8 & 0xFF;
}

static void hears(const char *what, uint8_t code, unsigned fails, int reason, uint32_t error, uint8_t sector) {
    uint8_t named = 0;
    uint32_t heard = error_of(code, fails, reason, &named);
    if (heard != error) fail(what, heard);
    if (error && sector && named != sector) fail(what, named);
}

/* So many sectors of the file have this byte, from sector 8 on, and the next has another one. */
static void has(const char *what, uint8_t byte, unsigned count) {
    uint8_t sector[512];
    unsigned at;
    for (at = 8; at <= 8 + count && at < 16; at++) {
        int is_whole;
        if (__real_pread(file, sector, 512, 512 * (off_t)at) != 512) fail(what, at);
        is_whole = sector[0] == byte && !memcmp(sector, sector + 1, 511);
        if (is_whole != (at < 8 + count)) fail(what, at);
    }
}

/* The link is reset before the file comes to a store, or a discard. It is answered then, so that other commands get its sectors. */
static void is_late_for(const char *what, uint8_t code, uint8_t byte) {
    is_late = 1;
    kept.kind = GEF_EVENT_NOTHING;
    plain(0, code, code == TRIM, code == TRIM ? 0 : 8, code == TRIM ? 1 : 8, code == TRIM ? 512 : 4096, 1);
    if (kept.kind == GEF_EVENT_NOTHING) fail(what, code);
    reset_link();
    bring_up(0);
    is_late = 0;
    must(what, gef_files_serve(&machine, file, room, &kept));
    memset(memory + data_of(0), byte, 4096);
    hears(what, WRITE, 0, 0, 0, 0);
    has(what, byte, 8);
}

/* A hole for each range of a discard, of just its sectors, and the file keeps its length. */
static void makes_holes(void) {
    static const uint8_t ranges[16] = {8, 0, 0, 0, 0, 0, 8, 0, 20, 0, 0, 0, 0, 0, 2, 0};
    unsigned at;
    memset(memory + data_of(0), 0, 512);
    memcpy(memory + data_of(0), ranges, sizeof ranges);
    holes_asked = 0;
    hears("a discard", TRIM, 0, 0, 0, 0);
    if (holes_asked != 2) fail("holes", holes_asked);
    for (at = 0; at < 2; at++) {
        if (holes[at].mode != (FALLOC_FL_PUNCH_HOLE | FALLOC_FL_KEEP_SIZE)) fail("a hole's mode", (unsigned long)holes[at].mode);
        if (holes[at].at != 512 * ranges[8 * at] || holes[at].len != 512 * ranges[8 * at + 6]) fail("a hole's place", at);
    }
    holes_asked = 0;
}

static void make(void) {
    gef_disk_profile profile = {"FILES", "1", "1", 0, 0, 512, 1, 32, 1, GEF_LEAST_LIMIT};
    char name[] = "/tmp/gefsunk-files-XXXXXX";
    file = mkstemp(name);
    if (file < 0 || unlink(name) || ftruncate(file, 512 * SECTORS + 100)) fail("no file", 0);
    must("sectors", (gef_status)gef_files_sectors(file, &profile.sectors));
    if (profile.sectors != SECTORS) fail("sectors", (unsigned long)profile.sectors);
    begin_with(&profile);
}

int main(void) {
    unsigned at;
    make();
    memset(memory + data_of(0), 0xA5, 4096);
    hears("a write", WRITE, 0, 0, 0, 0);
    has("a write", 0xA5, 8);
    for (at = 1; at <= 8; at++) {
        memset(memory + data_of(0), 0x10 + (int)at, 4096);
        hears("a write that is interrupted", WRITE, at, EINTR, 0, 0);
        has("a write that is interrupted", (uint8_t)(0x10 + at), 8);
        memset(memory + data_of(0), 0x20 + (int)at, 4096);
        hears("a write that fails", WRITE, at, ENOSPC, GEF_ABRT, (uint8_t)(7 + at));
        has("a write that fails", (uint8_t)(0x20 + at), at - 1);
        hears("a read that is interrupted", READ, at, EINTR, 0, 0);
        hears("a read that fails", READ, at, EIO, GEF_UNC, (uint8_t)(7 + at));
    }
    hears("a flush", FLUSH, 0, 0, 0, 0);
    hears("a flush that fails", FLUSH, 1, EIO, GEF_ABRT, 0);
    makes_holes();
    is_late_for("a late discard", TRIM, 0x51);
    memset(memory + data_of(0), 0x52, 4096);
    is_late_for("a late store", WRITE, 0x53);
    for (at = 6; at < 16; at++) {
        uint8_t first = (uint8_t)(at < 8 ? 8 : at);
        if (ftruncate(file, 512 * (off_t)at)) fail("no file", at);
        hears("a read behind the end", READ, 0, 0, GEF_IDNF, first);
        hears("a write behind the end", WRITE, 0, 0, GEF_IDNF, first);
        if (lseek(file, 0, SEEK_END) != 512 * (off_t)at) fail("a write made the file longer", at);
    }
    if (ftruncate(file, 512 * (off_t)16)) fail("no file", 16);
    hears("a write up to the end", WRITE, 0, 0, 0, 0);
    must("free", gef_machine_free(&machine));
    close(file);
    puts("each call on the file failed once");
    return 0;
}
