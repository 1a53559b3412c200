/*
 * A port multiplier with two disks behind it, all by FISes. The program plays the host: it opens both ports, gets the disks' signatures,
 * writes a sector of the disk at port 1 by a queued command, and reads it again. Then that disk goes.
 */
#include <stdio.h>
#include <string.h>
#include "gefsunk.h"

enum { PORTS = 2, SECTORS = 64 };

static uint8_t media[PORTS][512 * SECTORS];
static gef_pm pm = GEF_PM_CLOSED;
static gef_disk disks[PORTS];

/* What the host has to write to port 1, and the bytes of the last Data FIS that it got. */
static uint8_t written[4 + 512] = {0x46, 1}, got[GEF_FIS_ROOM];

static void check(const char *what, gef_status status) {
    if (status != GEF_OK) printf("%s: %s\n", what, gef_status_text(status));
}

/* What a disk asks of its medium, which is an array of this program. */
static void serve(unsigned port, const gef_event *event) {
    const gef_request *request = &event->u.medium.request;
    uint8_t *bytes = media[port] + 512 * event->u.medium.lba;
    size_t len = 512 * (size_t)event->u.medium.count;
    if (event->kind == GEF_EVENT_LOAD) {
        check("loaded", gef_disk_answer_loaded(&disks[port], request, bytes, len));
        return;
    }
    if (event->kind == GEF_EVENT_STORE) check("stored", gef_disk_stored(&disks[port], request, 0, bytes, len, &len));
    check("done", gef_disk_answer_done(&disks[port], request));
}

/* A FIS came up to the host. It sends the data of its write as it is asked to. */
static void hear(const uint8_t *fis, size_t len) {
    char text[GEF_TEXT_ROOM];
    if (fis[0] == 0x46) {
        memcpy(got, fis + 4, len - 4);
        printf("up: data of port %u, %u bytes\n", fis[1] & 15u, (unsigned)(len - 4));
        return;
    }
    check("text", gef_fis_text(fis, len, text, sizeof text));
    printf("up: %s\n", text);
    if (fis[0] == 0x39 || (fis[0] == 0x41 && fis[1] & 0x80)) check("data", gef_pm_from_host(&pm, written, sizeof written));
}

/* What can move between the multiplier and a disk: one FIS down, what is asked of the medium, one FIS up. */
static int move(uint8_t port) {
    static uint8_t fis[GEF_FIS_ROOM];
    gef_event event;
    size_t len;
    int has_moved = 0;
    if (gef_pm_to_device(&pm, port, fis, sizeof fis, &len) == GEF_OK) {
        check("disk", gef_disk_from_host(&disks[port], fis, len));
        has_moved = 1;
    }
    while (gef_disk_next(&disks[port], &event) == GEF_OK && event.kind != GEF_EVENT_NOTHING) serve(port, &event);
    if (gef_disk_to_host(&disks[port], fis, sizeof fis, &len) == GEF_OK) {
        /* The place is empty, since all goes up before the next round. Else the FIS would be kept, and passed again later. */
        check("up", gef_pm_from_device(&pm, port, fis, len));
        has_moved = 1;
    }
    return has_moved;
}

/* Rounds until nothing moves. */
static void settle(void) {
    static uint8_t fis[GEF_FIS_ROOM];
    int has_moved = 1;
    while (has_moved) {
        uint8_t port, from;
        size_t len;
        has_moved = 0;
        for (port = 0; port < PORTS; port++) {
            has_moved |= move(port);
            while (gef_pm_to_host(&pm, fis, sizeof fis, &len, &from) == GEF_OK) {
                hear(fis, len);
                has_moved = 1;
            }
        }
    }
}

static void send(const uint8_t *fis, size_t len) {
    check("down", gef_pm_from_host(&pm, fis, len));
    settle();
}

/* WRITE PORT MULTIPLIER: the host writes a register of a port, by the control port. */
static void write_register(uint8_t port, uint8_t number, uint32_t value) {
    uint8_t fis[20] = {0x27, 0x8F, 0xE8};
    fis[3] = number;
    fis[4] = (uint8_t)(value >> 8);
    fis[5] = (uint8_t)(value >> 16);
    fis[6] = (uint8_t)(value >> 24);
    fis[7] = port;
    fis[12] = (uint8_t)value;
    send(fis, sizeof fis);
}

/* A queued command of sector 5 of port 1, with tag 3. */
static void queued(uint8_t code) {
    uint8_t fis[20] = {0x27, 0x81, 0, 1, 5, 0, 0, 0x40, 0, 0, 0, 0, 3 << 3};
    fis[2] = code;
    send(fis, sizeof fis);
}

/* A disk comes to a port. SControl 0 opens it; then SError has bit X set, since a device came, and ones clear it. */
static void add_disk(uint8_t port) {
    gef_disk_profile profile = {"EXAMPLE DISK", port ? "TWO" : "ONE", "1", SECTORS, 0, 512, 1, 32, 0, GEF_LEAST_LIMIT};
    uint32_t errors = 0;
    check("disk", gef_disk_new(&disks[port], &profile));
    check("plug", gef_disk_plug(&disks[port]));
    check("plug", gef_pm_plug(&pm, port));
    write_register(port, 2, 0);
    check("read", gef_pm_read(&pm, port, 1, &errors));
    printf("SError of port %u is %08x\n", port, (unsigned)errors);
    write_register(port, 1, 0xFFFFFFFFu);
}

int main(void) {
    uint8_t port;
    check("new", gef_pm_new(&pm, PORTS));
    for (port = 0; port < PORTS; port++) add_disk(port);
    memset(written + 4, 0xA5, 512);
    queued(0x61);
    printf("the medium has %02x .. %02x\n", media[1][512 * 5], media[1][512 * 5 + 511]);
    queued(0x60);
    printf("the host has %02x .. %02x\n", got[0], got[511]);
    check("unplug", gef_pm_unplug(&pm, 1));
    queued(0x60);
    for (port = 0; port < PORTS; port++) check("free", gef_disk_free(&disks[port]));
    check("free", gef_pm_free(&pm));
    return 0;
}
