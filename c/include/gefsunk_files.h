/*
 * gefsunk_files.h - the media of a machine's disks are files, for programs with no block layer of their own.
 *
 *     static uint8_t room[GEF_FILES_ROOM];
 *     gef_disk_profile profile = { "A DISK", "1", "1", 0, 0, 512, 1, 32, 1, GEF_LEAST_LIMIT };
 *     int file = open("disk.img", O_RDWR);
 *     gef_files_sectors(file, &profile.sectors);
 *     gef_machine_put_disk(&machine, port, &profile);
 *     ...
 *     gef_machine_next(&machine, &event);
 *     if (gef_files_is_for(&event)) gef_files_serve(&machine, file_of[event.port], room, &event);
 *
 * A store is a pwrite, a flush an fdatasync, and a discard punches a hole where the system and the file system can. Each call
 * waits for the file: a program that must not wait gives the event to a thread of its own, and answers when that is done.
 *
 * These functions are plain C over the calls of gefsunk.h, whose rules hold here too. Those calls are proved; these functions
 * are not. They need POSIX.1-2008: define _GNU_SOURCE, or _POSIX_C_SOURCE as 200809L, before the first header (without
 * _GNU_SOURCE a discard does nothing), and on a system of 32 bits _FILE_OFFSET_BITS as 64.
 */
#ifndef GEFSUNK_FILES_H
#define GEFSUNK_FILES_H

#include <errno.h>
#include <fcntl.h>
#include <sys/stat.h>
#include <sys/types.h>
#include <unistd.h>
#include "gefsunk.h"

#ifdef __cplusplus
extern "C" {
#endif

/* Room for the bytes of any load or store. */
#define GEF_FILES_ROOM (2048u * 512u)

/* How many whole sectors a file has. 0 for success. */
static inline int gef_files_sectors(int file, uint64_t *sectors) {
    struct stat about;
    if (fstat(file, &about)) return -1;
    *sectors = (uint64_t)about.st_size / 512;
    return 0;
}

/* Whether an event is for a medium. */
static inline int gef_files_is_for(const gef_event *event) {
    return event->kind >= GEF_EVENT_LOAD && event->kind <= GEF_EVENT_DISCARD;
}

/* The sectors of a load: one that cannot be read is named, and one behind the file's end is none. */
static inline gef_status gef_files_load(gef_machine *machine, int file, uint8_t *room, const gef_event *event) {
    const gef_request *request = &event->u.medium.request;
    uint64_t lba = event->u.medium.lba;
    size_t len = event->u.medium.count * (size_t)512, done = 0;
    while (done < len) {
        ssize_t got = pread(file, room + done, len - done, (off_t)(lba * 512 + done));
        if (got < 0 && errno == EINTR) continue;
        if (got <= 0) return gef_machine_answer_failed(machine, request, got ? GEF_UNC : GEF_IDNF, lba + done / 512);
        done += (size_t)got;
    }
    return gef_machine_answer_loaded(machine, request, room, len);
}

/* Whether a file ends before the last sector of an event: then `lba` is the first that it does not have. A device has no such length. */
static inline int gef_files_ends_before(int file, const gef_event *event, uint64_t *lba) {
    struct stat about;
    uint64_t sectors, first = event->u.medium.lba;
    if (fstat(file, &about) || !S_ISREG(about.st_mode)) return 0;
    sectors = (uint64_t)about.st_size / 512;
    *lba = first < sectors ? sectors : first;
    return first + event->u.medium.count > sectors;
}

/*
 * The bytes of a store. Where a reset, a pull or an error dropped them it fails, which nobody hears: then its sectors are free again. A file
 * gets no longer by it.
 */
static inline gef_status gef_files_store(gef_machine *machine, int file, uint8_t *room, const gef_event *event) {
    const gef_request *request = &event->u.medium.request;
    uint64_t lba = event->u.medium.lba, end;
    size_t len = 0, done = 0;
    gef_status status = gef_machine_stored(machine, request, 0, room, GEF_FILES_ROOM, &len);
    if (status == GEF_NOT_OUT) return gef_machine_answer_failed(machine, request, GEF_ABRT, lba);
    if (status != GEF_OK) return status;
    if (gef_files_ends_before(file, event, &end)) return gef_machine_answer_failed(machine, request, GEF_IDNF, end);
    while (done < len) {
        ssize_t put = pwrite(file, room + done, len - done, (off_t)(lba * 512 + done));
        if (put < 0 && errno == EINTR) continue;
        if (put <= 0) return gef_machine_answer_failed(machine, request, GEF_ABRT, lba + done / 512);
        done += (size_t)put;
    }
    return gef_machine_answer_done(machine, request);
}

/* What was stored is to last. */
static inline gef_status gef_files_flush(gef_machine *machine, int file, const gef_event *event) {
    const gef_request *request = &event->u.medium.request;
    return fdatasync(file) ? gef_machine_answer_failed(machine, request, GEF_ABRT, 0) : gef_machine_answer_done(machine, request);
}

/* Holes in the file. One that cannot be made is none: what a discard leaves behind is open. One that a reset dropped fails, as a store does. */
static inline gef_status gef_files_discard(gef_machine *machine, int file, const gef_event *event) {
    const gef_request *request = &event->u.medium.request;
#ifdef FALLOC_FL_PUNCH_HOLE
    gef_range range;
    gef_status status;
    size_t at = 0;
    while ((status = gef_machine_discarded(machine, request, at++, &range)) == GEF_OK)
        (void)!fallocate(file, FALLOC_FL_PUNCH_HOLE | FALLOC_FL_KEEP_SIZE, (off_t)(range.lba * 512), (off_t)(range.count * 512));
    if (status == GEF_NOT_OUT) return gef_machine_answer_failed(machine, request, GEF_ABRT, 0);
    if (status != GEF_NOTHING) return status;
#else
    (void)file;
#endif
    return gef_machine_answer_done(machine, request);
}

/*
 * Does what an event asks of a medium that is this file, and answers. The room has GEF_FILES_ROOM bytes. One that comes behind a reset or a
 * pull is to be passed, too, since a store or a discard keeps its sectors until it is answered. It returns what the machine says: GEF_OK;
 * GEF_OTHER_DISK or GEF_NOT_OUT where nobody waits any more; GEF_NO_MEMORY: then call it again with the event. GEF_NOTHING: the event is
 * for no medium.
 */
static inline gef_status gef_files_serve(gef_machine *machine, int file, uint8_t *room, const gef_event *event) {
    switch (event->kind) {
    case GEF_EVENT_LOAD: return gef_files_load(machine, file, room, event);
    case GEF_EVENT_STORE: return gef_files_store(machine, file, room, event);
    case GEF_EVENT_FLUSH: return gef_files_flush(machine, file, event);
    case GEF_EVENT_DISCARD: return gef_files_discard(machine, file, event);
    default: return GEF_NOTHING;
    }
}

#ifdef __cplusplus
}
#endif

#endif
