/*
 * A disk whose sectors lie in a file (gefsunk_files.h). The guest writes a sector, and has the disk flush it. Then the machine is freed,
 * as if the process had ended; another one is made over the same file, and its guest reads the sector.
 */
#define _GNU_SOURCE
#include <stdlib.h>
#include "gefsunk_files.h"
#include "guest.h"

enum { SECTORS = 64 };

static uint8_t room[GEF_FILES_ROOM];
static int file;

static void settle(void) {
    gef_event event;
    for (;;) {
        gef_status status = gef_machine_next(&machine, &event);
        check("next", status);
        if (status != GEF_OK || event.kind == GEF_EVENT_NOTHING) return;
        if (event.kind == GEF_EVENT_READ_GUEST) read_guest(&event);
        if (event.kind == GEF_EVENT_WRITE_GUEST) write_guest(&event);
        if (gef_files_is_for(&event)) check("file", gef_files_serve(&machine, file, room, &event));
    }
}

/* A machine without a multiplier, whose one disk has the sectors of the file. */
static void begin(void) {
    gef_disk_profile profile = {"EXAMPLE DISK", "ONE", "1", 0, 0, 512, 1, 32, 1, GEF_LEAST_LIMIT};
    if (gef_files_sectors(file, &profile.sectors)) puts("the file has no size");
    printf("a disk of %u sectors\n", (unsigned)profile.sectors);
    check("new", gef_machine_new(&machine, 0, 0));
    check("put", gef_machine_put_disk(&machine, 0, &profile));
    check("plug", gef_machine_plug(&machine, 0));
    check("power", gef_machine_power_on(&machine));
    bring_up();
}

static void end(void) {
    check("free", gef_machine_free(&machine));
    memset(memory, 0, sizeof memory);
}

/* The sectors 5 and 6. */
static void read_two(void) {
    puts("READ FPDMA QUEUED");
    issue_queued(7, 0, 0x60, 5, 2);
    serve_interrupt();
    printf("%02x %02x\n", buffer_of(7)[0], buffer_of(7)[512]);
}

int main(void) {
    char name[] = "/tmp/gefsunk-example-XXXXXX";
    file = mkstemp(name);
    if (file < 0 || ftruncate(file, 512 * SECTORS)) return 1;

    begin();
    read_two();
    puts("WRITE FPDMA QUEUED");
    memset(buffer_of(3), 0xA5, 512);
    issue_queued(3, 0, 0x61, 5, 1);
    serve_interrupt();
    puts("FLUSH CACHE EXT");
    issue_plain(0, 0xEA, 0, 0, 0, 0, 0);
    serve_interrupt();
    end();

    begin();
    read_two();
    puts("the file's end is cut off");
    if (ftruncate(file, 512 * 6)) return 1;
    read_two();
    end();
    close(file);
    unlink(name);
    return 0;
}
