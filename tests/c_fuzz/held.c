/*
 * What a disk holds between commands: held
 *
 * Two disks read and write 32 times 1 MiB at once, with a limit of 4 MiB. Once all has ended, no more memory may be in use than before
 * but for the large blocks that wait (c/large.c), and at no time more than the limits allow beside.
 */
#define _DEFAULT_SOURCE
#include <malloc.h>
#define SLOT_BYTES 0x100000
#include "driver.h"

enum { SECTORS = 2048, LIMIT = 4 << 20, WAITING = 8 << 20, SMALL = 1 << 20, DISKS = 2 };

static uint8_t medium[512 * SECTORS];
static size_t most;

static size_t in_use(void) {
    struct mallinfo2 info = mallinfo2();
    return info.uordblks + info.hblkhd;
}

static int step(void) {
    gef_event event;
    size_t len;
    must("next", gef_machine_next(&machine, &event));
    if (in_use() > most) most = in_use();
    switch (event.kind) {
    case GEF_EVENT_READ_GUEST:
        read_guest(&event);
        break;
    case GEF_EVENT_WRITE_GUEST:
        write_guest(&event);
        break;
    case GEF_EVENT_LOAD:
        must("loaded", gef_machine_answer_loaded(&machine, &event.u.medium.request, medium, 512 * (size_t)event.u.medium.count));
        break;
    case GEF_EVENT_STORE:
        must("stored", gef_machine_stored(&machine, &event.u.medium.request, 0, medium, 512 * (size_t)event.u.medium.count, &len));
        must("done", gef_machine_answer_done(&machine, &event.u.medium.request));
        break;
    }
    return event.kind != GEF_EVENT_NOTHING;
}

/* All slots have a command for the disk at a port. */
static void plays(unsigned port, int is_write) {
    unsigned slot;
    uint8_t fis[20];
    for (slot = 0; slot < SLOTS; slot++) {
        queued_fis(fis, slot, is_write ? 0x61 : 0x60, 0, SECTORS);
        put_command(slot, port, fis, is_write, 1);
        put_entry(slot, 0, data_of(slot), 512 * SECTORS);
        issue(slot, port, 1);
    }
    settle();
    if (read_register(SACT)) fail("commands did not end", read_register(SACT));
}

int main(void) {
    gef_disk_profile profile = {"HELD", "1", "1", SECTORS, 0, 512, 1, 32, 0, LIMIT};
    size_t before;
    unsigned port;
    begin_behind(DISKS, profile);
    before = most = in_use();
    for (port = 0; port < DISKS; port++) {
        plays(port, 0);
        plays(port, 1);
        if (in_use() > before + WAITING + SMALL) fail("bytes are held for commands that ended", (unsigned long)(in_use() - before));
    }
    if (most > before + DISKS * LIMIT + WAITING + SMALL) fail("more bytes are held than the limits", (unsigned long)(most - before));
    must("free", gef_machine_free(&machine));
    return 0;
}
