/*
 * A machine: a controller, a multiplier, and two disks whose sectors lie in arrays of this program. The guest writes a sector of the disk
 * at port 0 by a queued command, has it made lasting, reads it again, and says that it is not needed any more; then it opens port 1,
 * and reads there. What the machine asks of the media is shown. In the end the program makes some mistakes.
 */
#include "guest.h"

enum { SECTORS = 64 };

static uint8_t media[2][512 * SECTORS];

static void load(const gef_event *event) {
    const uint8_t *from = media[event->port] + 512 * event->u.medium.lba;
    printf("port %u: load %u from %u\n", event->port, event->u.medium.count, (unsigned)event->u.medium.lba);
    check("loaded", gef_machine_answer_loaded(&machine, &event->u.medium.request, from, 512 * (size_t)event->u.medium.count));
}

static void store(const gef_event *event) {
    uint8_t *to = media[event->port] + 512 * event->u.medium.lba;
    size_t len = 0;
    check("stored", gef_machine_stored(&machine, &event->u.medium.request, 0, to, 512 * (size_t)event->u.medium.count, &len));
    printf("port %u: store %u from %u\n", event->port, (unsigned)(len / 512), (unsigned)event->u.medium.lba);
    check("done", gef_machine_answer_done(&machine, &event->u.medium.request));
}

/* An array of this program lasts as long as it does, so there is nothing to do. */
static void flush(const gef_event *event) {
    printf("port %u: flush\n", event->port);
    check("done", gef_machine_answer_done(&machine, &event->u.medium.request));
}

static void discard(const gef_event *event) {
    gef_range range;
    size_t at;
    for (at = 0; gef_machine_discarded(&machine, &event->u.medium.request, at, &range) == GEF_OK; at++) {
        printf("port %u: discard %u from %u\n", event->port, (unsigned)range.count, (unsigned)range.lba);
        memset(media[event->port] + 512 * range.lba, 0, (size_t)(512 * range.count));
    }
    check("done", gef_machine_answer_done(&machine, &event->u.medium.request));
}

/* Does all that is to be done: the loop of a virtual machine. */
static void settle(void) {
    gef_event event;
    for (;;) {
        gef_status status = gef_machine_next(&machine, &event);
        check("next", status);
        if (status != GEF_OK || event.kind == GEF_EVENT_NOTHING) return;
        switch (event.kind) {
        case GEF_EVENT_READ_GUEST: read_guest(&event); break;
        case GEF_EVENT_WRITE_GUEST: write_guest(&event); break;
        case GEF_EVENT_LOAD: load(&event); break;
        case GEF_EVENT_STORE: store(&event); break;
        case GEF_EVENT_FLUSH: flush(&event); break;
        case GEF_EVENT_DISCARD: discard(&event); break;
        case GEF_EVENT_LINE: printf("line %s\n", event.u.up ? "up" : "down"); break;
        default: break; /* GEF_EVENT_AGAIN, and what this guest does not use */
        }
    }
}

/* A disk of 64 sectors, each with a byte of its own. */
static void add_disk(uint8_t port) {
    gef_disk_profile profile = {"EXAMPLE DISK", port ? "TWO" : "ONE", "1", SECTORS, 0, 512, 1, 32, 1, GEF_LEAST_LIMIT};
    unsigned lba;
    for (lba = 0; lba < SECTORS; lba++) memset(media[port] + 512 * lba, (int)(128u * port + lba), 512);
    check("put", gef_machine_put_disk(&machine, port, &profile));
    check("plug", gef_machine_plug(&machine, port));
}

/* READ DMA EXT of the sectors 4 to 6. */
static void read_three(uint8_t port) {
    const uint8_t *bytes = buffer_of(0);
    printf("READ DMA EXT, sectors 4 to 6 of port %u\n", port);
    issue_plain(port, 0x25, 4, 0, 3, 1536, 0);
    serve_interrupt();
    printf("%02x %02x %02x\n", bytes[0], bytes[512], bytes[1024]);
}

static void show(const char *what, gef_status status) {
    printf("%s: %s\n", what, gef_status_text(status));
}

/* What a program gets that does not keep to the header: a status, and all is as before. */
static void make_mistakes(void) {
    gef_disk_profile profile = {"EXAMPLE DISK", "THREE", "1", 0, 0, 512, 1, 32, 1, GEF_LEAST_LIMIT};
    gef_event event = {0};
    uint64_t value;
    show("made twice", gef_machine_new(&machine, 2, 1));
    show("a disk at port 2 of 2", gef_machine_plug(&machine, 2));
    show("a disk where one is", gef_machine_put_device(&machine, 1));
    show("plugged twice", gef_machine_plug(&machine, 1));
    check("remove", gef_machine_remove(&machine, 1));
    show("a disk without sectors", gef_machine_put_disk(&machine, 1, &profile));
    profile.sectors = SECTORS;
    profile.depth = 33;
    show("a queue of 33", gef_machine_put_disk(&machine, 1, &profile));
    show("a read of 3 bytes", gef_machine_read(&machine, 0, 3, &value));
    show("an answer to nothing", gef_machine_answer_done(&machine, &event.u.medium.request));
    show("bytes that nobody wants", gef_machine_no_memory(&machine, &event.u.read.wanted));
    show("no event", gef_machine_next(&machine, 0));
}

int main(void) {
    static const uint8_t range[8] = {5, 0, 0, 0, 0, 0, 1, 0}; /* one sector, from 5 on */
    check("new", gef_machine_new(&machine, 2, 1));
    add_disk(0);
    add_disk(1);
    check("power", gef_machine_power_on(&machine));
    bring_up();

    puts("WRITE FPDMA QUEUED, sector 5 of port 0");
    memset(buffer_of(3), 0xA5, 512);
    issue_queued(3, 0, 0x61, 5, 1);
    serve_interrupt();
    puts("FLUSH CACHE EXT, port 0");
    issue_plain(0, 0xEA, 0, 0, 0, 0, 0);
    serve_interrupt();
    read_three(0);
    puts("DATA SET MANAGEMENT, sector 5 of port 0");
    memset(buffer_of(0), 0, 512);
    memcpy(buffer_of(0), range, sizeof range);
    issue_plain(0, 0x06, 0, 1, 1, 512, 1);
    serve_interrupt();
    read_three(0);
    open_port(1);
    serve_interrupt();
    read_three(1);

    make_mistakes();
    show("freed", gef_machine_free(&machine));
    show("freed twice", gef_machine_free(&machine));
    return 0;
}
