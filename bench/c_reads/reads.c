/*
 * Queued reads or writes by a guest through a machine: `reads COUNT SECTORS [read|write [DISKS]]` prints how many bytes came or went, and how
 * long it took. One disk is straight behind the controller; more are behind a multiplier, and each has its turn. Guest and medium are
 * arrays; each of their bytes is copied once.
 */
#include <time.h>
#define SLOT_BYTES 0x20000
#include "../../tests/c_fuzz/driver.h"

enum { SECTORS = 256 };

static uint8_t medium[512 * SECTORS];
static unsigned long long bytes_moved;

static double now(void) {
    struct timespec at;
    clock_gettime(CLOCK_PROCESS_CPUTIME_ID, &at);
    return (double)at.tv_sec * 1e6 + (double)at.tv_nsec / 1e3;
}

/* Bytes go where they belong, without a copy between. */
static void lend(const gef_event *event) {
    size_t len;
    if (event->u.write.at > MEMORY || event->u.write.len > MEMORY - event->u.write.at) fail("a write elsewhere", 0);
    must("lent", gef_machine_lent(&machine, memory + event->u.write.at, event->u.write.len, &len));
    bytes_moved += len;
}

static void load(const gef_event *event) {
    const uint8_t *from = medium + 512 * event->u.medium.lba;
    must("loaded", gef_machine_answer_loaded(&machine, &event->u.medium.request, from, 512 * (size_t)event->u.medium.count));
}

static void store(const gef_event *event) {
    size_t len;
    must("stored", gef_machine_stored(&machine, &event->u.medium.request, 0, medium + 512 * event->u.medium.lba,
                                      512 * (size_t)event->u.medium.count, &len));
    bytes_moved += len;
    must("done", gef_machine_answer_done(&machine, &event->u.medium.request));
}

static int step(void) {
    gef_event event;
    must("next", gef_machine_next(&machine, &event));
    if (event.kind == GEF_EVENT_READ_GUEST)
        must("supply", gef_machine_supply(&machine, &event.u.read.wanted, memory + event.u.read.at, event.u.read.len));
    if (event.kind == GEF_EVENT_WRITE_GUEST) lend(&event);
    if (event.kind == GEF_EVENT_LOAD) load(&event);
    if (event.kind == GEF_EVENT_STORE) store(&event);
    return event.kind != GEF_EVENT_NOTHING;
}

/* A machine with so many disks. */
static void begin(unsigned disks) {
    gef_disk_profile profile = {"READS", "1", "1", SECTORS, 0, 512, 1, 32, 0, GEF_LEAST_LIMIT};
    unsigned port;
    if (disks == 1) {
        begin_with(&profile);
        return;
    }
    must("new", gef_machine_new(&machine, disks, 0));
    for (port = 0; port < disks; port++) {
        must("put", gef_machine_put_disk(&machine, port, &profile));
        must("plug", gef_machine_plug(&machine, port));
    }
    must("power", gef_machine_power_on(&machine));
    bring_up(disks);
}

static void transfer(unsigned slot, unsigned port, int is_write, uint32_t sectors) {
    uint8_t fis[20];
    queued_fis(fis, slot, is_write ? 0x61 : 0x60, 0, sectors);
    put_command(slot, port, fis, is_write, 1);
    put_entry(slot, 0, data_of(slot), 512 * sectors);
    issue(slot, port, 1);
    settle();
    if (read_register(SACT)) fail("a command did not end", slot);
}

int main(int count, char **words) {
    unsigned long commands = count > 1 ? strtoul(words[1], 0, 10) : 0, at;
    uint32_t sectors = count > 2 ? (uint32_t)strtoul(words[2], 0, 10) : 1;
    int is_write = count > 3 && !strcmp(words[3], "write");
    unsigned disks = count > 4 ? (unsigned)strtoul(words[4], 0, 10) : 1;
    double start;
    if (sectors < 1 || sectors > SECTORS || disks < 1 || disks > 15) return 2;
    begin(disks);
    start = now();
    for (at = 0; at < commands; at++) transfer((unsigned)(at % SLOTS), (unsigned)(at % disks), is_write, sectors);
    printf("%lu commands of %u sectors: %llu bytes, %.0f microseconds\n", commands, (unsigned)sectors, bytes_moved, now() - start);
    must("free", gef_machine_free(&machine));
    return 0;
}
