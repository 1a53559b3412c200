/*
 * A disk by itself, with `fis=on`: the machine sees a device by its FISes, and each FIS passes here, where a script can meet it.
 */
#include "qemu/osdep.h"
#include "qemu/timer.h"
#include "gefsunk_ahci.h"

static void move_later(void *opaque)
{
    gefsunk_run(gefsunk_controller_of(opaque));
}

gef_status gefsunk_fis_new(GefsunkDisk *disk, const gef_disk_profile *profile)
{
    QTAILQ_INIT(&disk->link.up);
    disk->link.timer = timer_new_ns(QEMU_CLOCK_VIRTUAL, move_later, disk);
    return gef_disk_new(&disk->link.disk, profile);
}

void gefsunk_fis_free(GefsunkDisk *disk)
{
    gefsunk_fis_drop(disk);
    timer_free(disk->link.timer);
    gef_disk_free(&disk->link.disk);
}

void gefsunk_fis_drop(GefsunkDisk *disk)
{
    GefsunkFrame *frame;
    while ((frame = QTAILQ_FIRST(&disk->link.up))) {
        QTAILQ_REMOVE(&disk->link.up, frame, next);
        g_free(frame);
    }
}

void gefsunk_fis_begin(GefsunkDisk *disk)
{
    gefsunk_fis_drop(disk);
    gefsunk_must(gef_disk_plug(&disk->link.disk));
}

void gefsunk_fis_say(GefsunkDisk *disk, const uint8_t *fis, size_t len, int64_t delay)
{
    GefsunkFrame *frame = g_new(GefsunkFrame, 1);
    memcpy(frame->bytes, fis, len);
    frame->len = len;
    frame->due = qemu_clock_get_ns(QEMU_CLOCK_VIRTUAL) + delay;
    QTAILQ_INSERT_TAIL(&disk->link.up, frame, next);
    if (delay) {
        timer_mod(disk->link.timer, frame->due);
    }
}

void gefsunk_fis_hear(GefsunkAhci *s, GefsunkDisk *disk)
{
    uint8_t fis[GEF_FIS_ROOM];
    size_t len;
    GefsunkPassage passage;
    if (!disk || gef_machine_take_frame(&s->machine, disk->port, fis, sizeof fis, &len) != GEF_OK || !disk->fis) {
        return; /* the last as a machine of somebody's stream may have it */
    }
    passage = gefsunk_faults_meet(s, disk, false, fis, &len);
    for (int times = passage.is_twice ? 2 : 1; times && !passage.is_lost && !disk->link.is_deaf; times--) {
        gef_status status = gef_disk_from_host(&disk->link.disk, fis, len);
        if (status != GEF_DROPPED && status != GEF_BAD_LENGTH) {
            gefsunk_must(status);
        }
    }
}

/* The next FIS of the disk sets out, as the script says. */
static void set_out(GefsunkAhci *s, GefsunkDisk *disk, uint8_t *fis, size_t len)
{
    GefsunkPassage passage = gefsunk_faults_meet(s, disk, true, fis, &len);
    if (passage.is_lost || disk->link.is_mute) {
        return;
    }
    gefsunk_fis_say(disk, fis, len, passage.delay);
    if (passage.is_twice) {
        gefsunk_fis_say(disk, fis, len, passage.delay);
    }
}

/* The first FIS on its way goes to the port, if it may and there is room. One of no length that a FIS has goes nowhere. */
static bool goes_up(GefsunkAhci *s, GefsunkDisk *disk)
{
    GefsunkFrame *frame = QTAILQ_FIRST(&disk->link.up);
    gef_status status;
    if (!frame || disk->link.is_held || frame->due > qemu_clock_get_ns(QEMU_CLOCK_VIRTUAL)) {
        return false;
    }
    status = gef_machine_offer(&s->machine, disk->port, frame->bytes, frame->len);
    if (status == GEF_FULL) {
        return false;
    }
    if (status != GEF_BAD_LENGTH) {
        gefsunk_must(status);
    }
    QTAILQ_REMOVE(&disk->link.up, frame, next);
    g_free(frame);
    return true;
}

static bool moves(GefsunkAhci *s, GefsunkDisk *disk)
{
    uint8_t fis[GEF_FIS_ROOM];
    size_t len;
    gef_event event;
    gefsunk_must(gef_disk_next(&disk->link.disk, &event));
    if (event.kind != GEF_EVENT_NOTHING) {
        event.port = disk->port;
        gefsunk_ask_medium(s, &event);
        return true;
    }
    if (QTAILQ_EMPTY(&disk->link.up) && gef_disk_to_host(&disk->link.disk, fis, sizeof fis, &len) == GEF_OK) {
        set_out(s, disk, fis, len);
        return true;
    }
    return goes_up(s, disk);
}

bool gefsunk_fis_move(GefsunkAhci *s)
{
    bool moved = false;
    for (unsigned port = 0; port < MOST_PORTS; port++) {
        if (s->disks[port] && s->disks[port]->fis) {
            moved |= moves(s, s->disks[port]);
        }
    }
    return moved;
}
