/*
 * A machine with two disks, the one at port 1 on a medium that is slow. What is asked of it is put into a list, and answered later, the
 * last first: a program with asynchronous input and output does so, as an answer comes from its system. The other disk goes on in the
 * meantime. In the end the slow disk is pulled while two loads are on their way: their answers are refused, and dropped.
 */
#include "guest.h"

enum { SECTORS = 64, SLOW = 1 };

static uint8_t media[2][512 * SECTORS];

/* What the slow medium has to do. */
static gef_event waiting[32];
static size_t count;

/* A medium did what it was asked. Where nobody waits for it any more, that is said, and nothing else is to be done. */
static void answer(const gef_event *event) {
    uint8_t *bytes = media[event->port] + 512 * event->u.medium.lba;
    size_t len = 512 * (size_t)event->u.medium.count;
    const gef_request *request = &event->u.medium.request;
    gef_status status = event->kind == GEF_EVENT_LOAD ? gef_machine_answer_loaded(&machine, request, bytes, len)
                                                      : gef_machine_answer_done(&machine, request);
    printf("port %u: the sectors from %u on are there: %s\n", event->port, (unsigned)event->u.medium.lba, gef_status_text(status));
}

/* The bytes of a store are copied at once, and written now or later. */
static void begin(const gef_event *event) {
    uint8_t *bytes = media[event->port] + 512 * event->u.medium.lba;
    size_t len = 512 * (size_t)event->u.medium.count;
    printf("port %u: wanted are %u sectors from %u on\n", event->port, event->u.medium.count, (unsigned)event->u.medium.lba);
    if (event->kind == GEF_EVENT_STORE) check("stored", gef_machine_stored(&machine, &event->u.medium.request, 0, bytes, len, &len));
    if (event->port == SLOW)
        waiting[count++] = *event;
    else
        answer(event);
}

static void settle(void) {
    gef_event event;
    for (;;) {
        gef_status status = gef_machine_next(&machine, &event);
        check("next", status);
        if (status != GEF_OK || event.kind == GEF_EVENT_NOTHING) return;
        switch (event.kind) {
        case GEF_EVENT_READ_GUEST: read_guest(&event); break;
        case GEF_EVENT_WRITE_GUEST: write_guest(&event); break;
        case GEF_EVENT_LOAD:
        case GEF_EVENT_STORE:
        case GEF_EVENT_FLUSH: begin(&event); break;
        default: break;
        }
    }
}

/* The slow medium did the last thing that it was asked for. */
static void one_comes(void) {
    answer(&waiting[--count]);
    settle();
    printf("PxSACT %x\n", (unsigned)read_register(SACT));
}

static void add_disk(uint8_t port) {
    gef_disk_profile profile = {"EXAMPLE DISK", port ? "TWO" : "ONE", "1", SECTORS, 0, 512, 1, 32, 0, GEF_LEAST_LIMIT};
    unsigned lba;
    for (lba = 0; lba < SECTORS; lba++) memset(media[port] + 512 * lba, (int)(128u * port + lba), 512);
    check("put", gef_machine_put_disk(&machine, port, &profile));
    check("plug", gef_machine_plug(&machine, port));
}

static void show_buffer(unsigned slot) {
    printf("slot %u: %02x .. %02x\n", slot, buffer_of(slot)[0], buffer_of(slot)[1023]);
}

int main(void) {
    unsigned slot;
    check("new", gef_machine_new(&machine, 2, 1));
    add_disk(0);
    add_disk(SLOW);
    check("power", gef_machine_power_on(&machine));
    bring_up();
    open_port(SLOW);

    puts("slots 1 to 3 read from port 1, slot 4 from port 0");
    for (slot = 1; slot <= 3; slot++) issue_queued(slot, SLOW, 0x60, (uint8_t)(10 * slot), 2);
    issue_queued(4, 0, 0x60, 40, 2);
    printf("PxSACT %x\n", (unsigned)read_register(SACT));
    while (count) one_comes();
    for (slot = 1; slot <= 4; slot++) show_buffer(slot);

    puts("slots 5 and 6 read from port 1, which is pulled");
    issue_queued(5, SLOW, 0x60, 50, 2);
    issue_queued(6, SLOW, 0x60, 52, 2);
    check("pull", gef_machine_pull(&machine, SLOW));
    settle();
    while (count) one_comes();
    puts("slot 4 writes to port 0, and reads again");
    memset(buffer_of(4), 0xA5, 1024);
    issue_queued(4, 0, 0x61, 40, 2);
    memset(buffer_of(4), 0, 1024);
    issue_queued(4, 0, 0x60, 40, 2);
    show_buffer(4);
    check("free", gef_machine_free(&machine));
    return 0;
}
